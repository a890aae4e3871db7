//! The stream of a client, whose requests come one by one.

use super::{Answers, Bad, Head};
use crate::client::Client;
use crate::mail::{client_actor, AnswerBody, Input, Mail, MailBody};
use crate::text::{self, Coded, Json};
use crate::values::{Op, Reply};

/// The greatest number of a request.
const LAST_REQUEST: usize = 1 << 31;

/// A client, the step that is held back until the next request is known, and the version of the scenario.
pub struct ClientStream {
    client: Client,
    held: Option<Input>,
    version: u8,
}

/// What a client's stream takes.
enum Asked {
    Ask(Op),
    Input(Input),
}

fn sent(mails: &[Mail]) -> Json {
    text::fields([("sent", text::list(mails, Coded::to_json))])
}

impl ClientStream {
    fn state(&self) -> Json {
        let asked = self.client.requests.len() as u64;
        let under_way = self.held.is_none() && asked > 0;
        let counts = [("replies", (asked - u64::from(under_way)).to_json()), ("requests", asked.to_json())];
        text::fields([("state", text::fields(counts))])
    }

    fn read(&self, line: &[u8]) -> Option<Asked> {
        let json = text::parse(line)?;
        let read = match json.variant()? {
            ("Ask", content) => Asked::Ask(Op::from_json(content)?),
            _ => Asked::Input(Input::from_json(&json)?),
        };
        let spelled = match &read {
            Asked::Ask(op) => text::variant("Ask", op.to_json()),
            Asked::Input(input) => input.to_json(),
        };
        (spelled.text().as_bytes() == line).then_some(read)
    }

    fn ask(&mut self, op: Op) -> Result<Json, Bad> {
        if self.version == 1 && op.is_later() {
            return Err(Bad::BadRequest);
        }
        if self.client.requests.len() == LAST_REQUEST {
            return Err(Bad::TooMany);
        }
        let input = self.held.take().ok_or(Bad::UnderWay)?;
        self.client.requests.push(op);
        Ok(sent(&self.client.step(&input)))
    }

    /// Returns the reply that an input brings to the request under way.
    fn reply_in<'a>(&self, input: &'a Input) -> Option<&'a Reply> {
        match input {
            Input::Got(Mail {
                body: MailBody::Answer { seq, answer: AnswerBody::Value(reply), .. }, ..
            }) => (self.client.waiting == Some(*seq)).then_some(reply),
            _ => None,
        }
    }

    /// Takes a mail or a tick. The step that takes the reply is held back.
    fn take(&mut self, input: Input) -> Json {
        if self.held.is_some() {
            return sent(&[]);
        }
        if let Some(reply) = self.reply_in(&input) {
            let said = text::fields([
                ("reply", reply.to_json()),
                ("sent", text::list(&[] as &[Mail], Coded::to_json)),
            ]);
            self.held = Some(input);
            return said;
        }
        sent(&self.client.step(&input))
    }
}

impl Answers for ClientStream {
    fn born(number: u16, head: &Head) -> Option<ClientStream> {
        let s = &head.scenario;
        let client = Client::born(number, Vec::new(), &s.first_route());
        Some(ClientStream { client, held: Some(Input::Go), version: s.version })
    }

    fn answer(&mut self, line: &[u8]) -> Result<Json, Bad> {
        if line == b"\"State\"" {
            return Ok(self.state());
        }
        match self.read(line).ok_or(Bad::BadInput)? {
            Asked::Ask(op) => self.ask(op),
            Asked::Input(Input::Go | Input::Told(_)) => Err(Bad::BadInput),
            Asked::Input(Input::Got(mail)) if mail.to != client_actor(self.client.me) => {
                Err(Bad::MailToAnother)
            }
            Asked::Input(input) => Ok(self.take(input)),
        }
    }
}
