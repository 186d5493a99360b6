// SPDX-License-Identifier: MPL-2.0
//! The comparison's part for the gateway's side, alone and together with a hub.

use std::fmt::Debug;

use super::{Comparison, Difference, Implementation, same, spoilt};
use crate::client::{Answer, Client};
use crate::connection::Connection;
use crate::generate::{Case, ClientCase, Meeting, Side};

impl<I: Implementation> Comparison<I> {
    /// One step of the gateway's side; before it, opening with the same F and SessionID, and the
    /// request that is due.
    pub fn gateway_step(&mut self, case: &ClientCase) -> Result<Answer, Difference> {
        let client = case.client;
        let Client { fragment_size, session, .. } = client;
        let opened = Client::open(fragment_size, session);
        same(&client, opened, self.other.gateway_open(fragment_size, session))?;
        same(&client, client.due(), self.other.gateway_due(client))?;
        let mut clients = [case.clone(), case.clone()];
        self.gateways_hear(case, &mut clients, &case.message, case.verdict)
    }

    /// One more message at both gateways, this implementation's first.
    fn gateways_hear(
        &mut self,
        input: &dyn Debug,
        clients: &mut [ClientCase; 2],
        message: &[u8],
        verdict: u64,
    ) -> Result<Answer, Difference> {
        let [ours, theirs] = clients;
        let step = ours.client.step(message, &ours.keys, &mut ours.working, verdict);
        let (keys, working) = (&theirs.keys, &mut theirs.working);
        let their_step = self.other.gateway_step(theirs.client, message, keys, working, verdict);
        same(input, step, their_step)?;
        same(input, &ours.working, &theirs.working)?;
        (ours.client, theirs.client) = (step.0, their_step.0);
        self.tally.gateway_steps += 1;
        Ok(step.1)
    }

    /// A whole conversation between both sides, from opening them on: what they write, every step,
    /// what is due after it, and the promise of A2.
    pub fn meet(&mut self, meeting: &Meeting) -> Result<(), Difference> {
        for case in &meeting.written {
            self.same_bytes(case)?;
        }
        let (size, session) = (meeting.fragment_size, meeting.gateway.session);
        let opened = (Connection::open(size), Client::open(size, session));
        let theirs = (self.other.open(size), self.other.gateway_open(size, session));
        same(&(size, session), opened, theirs)?;
        let ((connection, _), (client, _)) = opened;
        let (keys, working) = (meeting.gateway.keys.to_vec(), vec![0xAA; meeting.working]);
        let (message, report, verdict) = (Vec::new(), Vec::new(), 0);
        let client = ClientCase { client, message, keys, working, verdict };
        let ClientCase { message, keys, working, .. } = client.clone();
        let hub = Case { connection, message, keys, working, report, verdict };
        let (mut hubs, mut clients) = ([hub.clone(), hub], [client.clone(), client]);
        for (number, arrival) in meeting.arrivals.iter().enumerate() {
            let input = (number, meeting);
            let (message, verdict) = (&arrival.message, arrival.verdict);
            match arrival.at {
                Side::Hub => self.hubs_hear(&input, &mut hubs, message, verdict)?,
                Side::Gateway => {
                    self.gateways_hear(&input, &mut clients, message, verdict)?;
                }
            }
            let (hub, client) = (hubs[0].connection, clients[0].client);
            same(&input, client.due(), self.other.gateway_due(client))?;
            if !meeting.keeps_promise(&hub, &client) {
                let text =
                    format!("{input:02x?}\nboth break the promise: {hub:02x?} {client:02x?}");
                return Err(Difference(text));
            }
        }
        self.tally.meetings += 1;
        Ok(())
    }

    /// As [`Comparison::every_fault`], for a step of the gateway's side.
    pub fn every_gateway_fault(&mut self, case: &ClientCase) -> Result<(), Difference> {
        for message in spoilt(&case.message) {
            self.gateway_step(&ClientCase { message, ..case.clone() })?;
        }
        for length in 0..=case.keys.len() {
            let keys = case.keys[..length].to_vec();
            self.gateway_step(&ClientCase { keys, ..case.clone() })?;
        }
        for length in 0..=case.working.len() {
            let working = case.working[..length].to_vec();
            self.gateway_step(&ClientCase { working, ..case.clone() })?;
        }
        Ok(())
    }
}
