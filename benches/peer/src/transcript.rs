//! The lines of the transcript: the fields stand in the order of their keys.

use serde::Serialize;

use crate::board::Board;

/// The number of a refusal, and why.
pub type Reason = (&'static str, &'static str);

#[derive(Serialize)]
#[serde(untagged)]
pub enum Line<'a> {
    Accepted {
        #[serde(skip_serializing_if = "Option::is_none")]
        board: Option<&'a Board>,
        charge: usize,
        #[serde(rename = "do")]
        word: &'static str,
        #[serde(rename = "game")]
        name: &'a str,
        seq: usize,
    },
    Refused {
        #[serde(rename = "game")]
        name: &'a str,
        no: &'static str,
        seq: usize,
        why: &'static str,
    },
    Final {
        board: Option<&'a Board>,
        charge: usize,
        #[serde(rename = "final")]
        is_final: bool,
        #[serde(rename = "game")]
        name: &'a str,
    },
    Stray {
        line: usize,
        no: &'static str,
        why: &'static str,
    },
}

impl Line<'_> {
    pub fn write(&self, text: &mut Vec<u8>) {
        serde_json::to_writer(&mut *text, self).expect("the keys are texts");
        text.push(b'\n');
    }
}
