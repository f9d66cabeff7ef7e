//! Why a merge has no path, for machines.

use super::beside::Beside;
use super::elsewhere::Elsewhere;
use super::lead::Lead;
use super::steps::Step;
use super::way::Blocked;
use super::words::Words;
use crate::json::Json;
use crate::program::Kind;

impl Words<'_> {
    /// The object of a refusal with all members more.
    pub fn json(&self, refusal: Json) -> Json {
        let why = self.why;
        let (told, steps) = match &why.lead {
            Lead::Found { steps, .. } => ("found", Some(steps)),
            Lead::Never { .. } => ("never", None),
            Lead::TooLong { .. } => ("too_long", None),
            Lead::GivenUp => ("given_up", None),
        };
        let whole = match &why.lead {
            Lead::Found { shortest, .. } => *shortest,
            Lead::Never { .. } | Lead::TooLong { .. } => true,
            Lead::GivenUp => false,
        };
        refusal
            .with("trail", self.trail_list())
            .with("device_there", self.device_there())
            .with("in_the_way", self.blocked())
            .with("outcomes", told)
            .with("schedule", steps.map(|steps| self.digits(steps)))
            .with("steps", steps.map(Vec::len))
            .with("choices", steps.map(|steps| self.choices(steps)))
            .with("exhaustive", whole)
            .with("states", why.states)
            .with("against", self.reasons())
            .with("elsewhere", self.elsewhere_object())
            .with("beside", self.beside_object())
    }

    fn at(&self, kind: &str, at: usize) -> Json {
        let (line, text) = self.line(at);
        Json::object([("kind", kind.into()), ("place", at.into()), ("line", line.into()), ("text", text.into())])
    }

    fn trail_list(&self) -> Json {
        let mut list = vec![];
        let legs = &self.why.trail.legs;
        for (i, leg) in legs.iter().enumerate() {
            for entered in &leg.entered {
                let kind = if let Kind::While { .. } = entered.statement.kind { "while" } else { "if" };
                let guard = self.at(kind, entered.statement.at).with("body", leg.visit.body.to_string());
                list.push(guard.with("slot", entered.guard).with("value", u8::from(entered.value)));
            }
            list.push(match &leg.site.kind {
                Kind::Call { function, .. } => {
                    let locations = legs.get(i + 1).map(|callee| callee.visit.locations.clone());
                    self.at("call", leg.site.at).with("body", leg.visit.body.to_string()).with("function", *function).with("locations", locations)
                }
                Kind::Merge { first, second, .. } => {
                    let merge = self.at("merge", leg.site.at).with("body", leg.visit.body.to_string());
                    merge.with("slots", vec![*first, *second]).with("locations", self.why.trail.ends.to_vec())
                }
                _ => self.at("statement", leg.site.at),
            });
        }
        Json::List(list)
    }

    fn device_there(&self) -> Json {
        let way = &self.why.way;
        let held = self.why.held.iter().map(|held| {
            let slots = held.holders.iter().map(|(body, slot)| Json::object([("body", body.to_string().into()), ("slot", (*slot).into())]));
            let lines = held.made.iter().map(|&at| self.line(at).0);
            Json::object([("location", held.location.into()), ("slots", Json::list(slots)), ("made_at_lines", Json::list(lines))])
        });
        Json::object([
            ("ends", way.ends.to_vec().into()),
            ("held", Json::list(held)),
            ("reached", way.reached[0].clone().into()),
            ("reached_from_second", way.reached[1].clone().into()),
            ("free", way.free.clone().into()),
        ])
    }

    fn blocked(&self) -> Json {
        match &self.why.way.blocked {
            Blocked::One(singles) => {
                let qubit = |(location, route): &(usize, Vec<usize>)| Json::object([("location", (*location).into()), ("route", route.clone().into())]);
                Json::object([("kind", "one".into()), ("qubits", Json::list(singles.iter().map(qubit)))])
            }
            Blocked::Several(locations, route) => {
                Json::object([("kind", "several".into()), ("locations", locations.clone().into()), ("route", route.clone().into())])
            }
            Blocked::Region => Json::object([("kind", "region".into())]),
        }
    }

    /// The steps whose outcome matters.
    fn choices(&self, steps: &[Step]) -> Json {
        let chosen = steps.iter().enumerate().filter(|(_, step)| step.chosen);
        Json::list(chosen.map(|(i, step)| self.choice(i, step)))
    }

    fn choice(&self, i: usize, step: &Step) -> Json {
        let (line, text) = self.line(step.at);
        Json::object([("step", (i + 1).into()), ("line", line.into()), ("text", text.into()), ("outcome", u8::from(step.outcome).into())])
    }

    /// What keeps the job from the merge.
    fn reasons(&self) -> Json {
        match &self.why.lead {
            Lead::Never { against, .. } => Json::list(against.iter().map(|against| self.against(against))),
            _ => Json::Null,
        }
    }

    fn elsewhere_object(&self) -> Json {
        match &self.why.elsewhere {
            Some(Elsewhere::Found { at, steps }) => {
                let (line, text) = self.line(*at);
                let merge = told("found").with("place", *at).with("line", line).with("text", text);
                merge.with("schedule", self.digits(steps)).with("steps", steps.len()).with("choices", self.choices(steps))
            }
            Some(Elsewhere::Nowhere) => told("never"),
            Some(Elsewhere::GivenUp) => told("given_up"),
            None => Json::Null,
        }
    }

    fn beside_object(&self) -> Json {
        match &self.why.beside {
            Some(Beside::Found { steps, parts_at }) => {
                let run = told("found").with("schedule", self.digits(steps)).with("steps", steps.len()).with("parts_at_step", parts_at + 1);
                run.with("parts_by", steps.get(*parts_at).map(|step| self.choice(*parts_at, step))).with("choices", self.choices(steps))
            }
            Some(Beside::Never) => told("never"),
            Some(Beside::GivenUp) => told("given_up"),
            None => Json::Null,
        }
    }
}

/// What a search came to.
fn told(outcomes: &str) -> Json {
    Json::object([("outcomes", outcomes.into())])
}
