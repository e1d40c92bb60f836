//! Lists of messages: unforged, whole, within 64, in any order.

use super::counts::Counts;
use super::liars::Scene;
use super::plan::Plan;
use super::player::Run;
use crate::model::machine::Machine;
use crate::model::record::{Content, Message, MessageFields, Request};
use crate::model::vote::Query;
use crate::model::LIST_LIMIT;
use crate::random::Random;

/// All that lists are built from.
pub struct Lists<'a> {
    pub plan: &'a Plan,
    pub machine: &'a Machine,
    runs: &'a [Run],
    requests: Vec<Request>,
}

impl<'a> Lists<'a> {
    pub fn new(plan: &'a Plan, runs: &'a [Run], machine: &'a Machine) -> Lists<'a> {
        Lists { plan, machine, runs, requests: plan.bag.concat() }
    }

    fn scene(&self) -> Scene<'_> {
        Scene { cast: self.plan.cast, machine: self.machine, requests: &self.requests }
    }

    /// A list for the vote on a read: at least one matching reply of each
    /// correct replica, the lies about it, and other messages.
    pub fn for_read(
        &self,
        query: &Query,
        right: u32,
        random: &mut Random,
        counts: &mut Counts,
    ) -> Vec<MessageFields> {
        let needed = self.runs.iter().filter_map(|run| {
            run.messages.iter().find(|message| answers(query, message)).map(Message::fields)
        });
        let scene = self.scene();
        let mut lies = Vec::new();
        for liar in &self.plan.liars {
            lies.extend(liar.about_read(&scene, query, right, random));
        }
        self.finish(needed.collect(), lies, random, counts)
    }

    /// A list for a halt count: all halts of correct replicas to the process,
    /// false ones, and other messages.
    pub fn for_halts(
        &self,
        process: u8,
        random: &mut Random,
        counts: &mut Counts,
    ) -> Vec<MessageFields> {
        let all = self.runs.iter().flat_map(|run| &run.messages);
        let needed = all
            .filter(|message| message.content == Content::Halt && message.process == process)
            .map(Message::fields);
        let scene = self.scene();
        let mut lies = Vec::new();
        for liar in &self.plan.liars {
            lies.extend(liar.about_halts(&scene, random));
        }
        self.finish(needed.collect(), lies, random, counts)
    }

    /// Adds lies that are not forged, and more messages of correct replicas,
    /// as far as there is room, and shuffles.
    fn finish(
        &self,
        mut list: Vec<MessageFields>,
        mut lies: Vec<MessageFields>,
        random: &mut Random,
        counts: &mut Counts,
    ) -> Vec<MessageFields> {
        let told = lies.len();
        lies.retain(|lie| self.is_unforged(lie));
        counts.forged += (told - lies.len()) as u64;
        random.shuffle(&mut lies);
        lies.truncate(LIST_LIMIT - list.len());
        counts.lies += lies.len() as u64;
        list.extend(lies);
        while list.len() < LIST_LIMIT && random.chance(7, 8) {
            match self.some_true_message(random) {
                Some(message) => list.push(message),
                None => break,
            }
        }
        random.shuffle(&mut list);
        counts.full_lists += u64::from(list.len() == LIST_LIMIT);
        list
    }

    /// Whether a message names no correct replica, or is one that it sent.
    fn is_unforged(&self, message: &MessageFields) -> bool {
        match self.runs.iter().find(|run| run.number == message.replica) {
            Some(run) => run.messages.iter().any(|sent| sent.fields() == *message),
            None => true,
        }
    }

    /// Any message of any correct replica, to whatever group.
    fn some_true_message(&self, random: &mut Random) -> Option<MessageFields> {
        let run = &self.runs[random.index(self.runs.len())];
        match run.messages.len() {
            0 => None,
            length => Some(run.messages[random.index(length)].fields()),
        }
    }
}

/// Whether a message is a reply to the read, with whatever value.
fn answers(query: &Query, message: &Message) -> bool {
    let fields = message.fields();
    fields == query.reply(fields.replica, fields.value)
}
