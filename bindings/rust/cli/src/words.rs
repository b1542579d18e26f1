//! Refusals in words that support staff can act on.

use std::fmt;

use barrowtide::{Blames, Reason, Refusal, MAX_IDS, MAX_INPUT, MAX_PAGE, MAX_PARTS, MAX_TOTAL};
use barrowtide::{MAX_LEAVES, MAX_TRANSACTIONS};

use crate::json::Json;
use crate::looks;

/// A published form.
#[derive(Clone, Copy, PartialEq, Eq)]
pub enum Form {
    Bump,
    Cmp,
    Tsc,
    Transaction,
    Beef,
}

impl Form {
    fn noun(self) -> &'static str {
        match self {
            Form::Bump => "BUMP",
            Form::Cmp => "compound path",
            Form::Tsc => "TSC proof",
            Form::Transaction => "transaction",
            Form::Beef => "bundle",
        }
    }

    /// One of it, told from others of its kind.
    pub fn one(self) -> &'static str {
        match self {
            Form::Bump => "a BUMP",
            Form::Cmp => "a compound path",
            Form::Tsc => "a TSC proof",
            Form::Transaction => "a transaction",
            Form::Beef => "a BEEF (BRC-62)",
        }
    }
}

/// What was asked when a refusal came.
#[derive(Clone, Copy, PartialEq, Eq)]
pub enum Asked {
    /// To read a form.
    Read(Form),
    /// To prove an id by a form.
    Prove(Form),
    /// To climb from all clients.
    Clients,
    /// To judge a bundle.
    Judge,
    /// To compare two proofs that were accepted.
    Compare,
    /// To compare two of different numbers of layers, and the transaction of the one with fewer.
    CompareDepths,
    /// Which of two BUMPs that prove an id is the shorter.
    Shorter,
    /// To merge two BUMPs whose clients each lead to one root.
    Merge,
    /// To write a BUMP.
    Write,
    /// To take a page of so many ids.
    Page,
    /// To turn a TSC proof into a BUMP.
    ToBump,
    /// To put transactions in order.
    Order,
}

impl Asked {
    /// The form that the input has to have.
    fn form(self) -> Option<Form> {
        match self {
            Asked::Read(form) | Asked::Prove(form) => Some(form),
            Asked::Clients | Asked::Shorter | Asked::Merge => Some(Form::Bump),
            Asked::Judge => Some(Form::Beef),
            Asked::ToBump => Some(Form::Tsc),
            Asked::Order => Some(Form::Transaction),
            Asked::Compare | Asked::CompareDepths | Asked::Write | Asked::Page => None,
        }
    }

    fn noun(self) -> &'static str {
        match self {
            Asked::Compare | Asked::CompareDepths => "proof",
            _ => self.form().map_or("list", Form::noun),
        }
    }
}

/// A refusal with what it takes to tell about it.
#[derive(Clone, Copy)]
pub struct Refused {
    /// What the library said.
    pub refusal: Refusal,
    /// What was asked.
    pub asked: Asked,
    /// Which of two inputs it is about.
    pub which: Option<&'static str>,
    /// What that input looks like and which form it should have, if it is of another one.
    looks: Option<(&'static str, Form)>,
    /// Whether it blames a transaction of 64 bytes.
    node_sized: bool,
}

impl Refused {
    /// A refusal about no input, or about one that is of the form asked for.
    pub fn new(refusal: Refusal, asked: Asked) -> Self {
        Self { refusal, asked, which: None, looks: None, node_sized: false }
    }

    /// A refusal about an input.
    pub fn of(data: &[u8], refusal: Refusal, asked: Asked) -> Self {
        let looks = asked.form().and_then(|form| Some((looks::like(data, form)?, form)));
        Self { looks, node_sized: is_node_sized(data, refusal), ..Self::new(refusal, asked) }
    }

    /// The same, about one of two inputs.
    pub fn which(self, which: &'static str) -> Self {
        Self { which: Some(which), ..self }
    }

    fn place(&self) -> Option<u64> {
        let Refusal { blames, carried, .. } = self.refusal;
        (blames == Blames::Place).then_some(carried)
    }

    fn transaction(&self) -> Option<u64> {
        let Refusal { blames, carried, in_transaction, .. } = self.refusal;
        (blames == Blames::Transaction).then_some(carried).or(in_transaction)
    }

    /// Layer and position of the sibling that is to blame.
    fn sibling(&self) -> Option<(u64, u64)> {
        let Refusal { reason, layer, sibling, .. } = self.refusal;
        matches!(reason, Reason::Missing | Reason::Twin).then_some((layer, sibling))
    }

    /// What is wrong and who has to do what.
    pub fn words(&self) -> String {
        if let Some((other, form)) = self.looks {
            return format!(
                "this looks like {other}. Check that it is the right file, or ask the sender for {}.",
                form.one()
            );
        }
        let noun = self.asked.noun();
        let Refusal { layer, sibling, .. } = self.refusal;
        let node = format!("the node at layer {layer}, position {sibling}");
        let software = format!("The software that wrote the {noun} is at fault");
        match (self.refusal.reason, self.asked) {
            (Reason::TooLong, Asked::Order) => format!(
                "the transactions are over {MAX_INPUT} bytes, more than this library takes. Put \
                 fewer of them in order at once."
            ),
            (Reason::TooLong, asked) => {
                let most = match asked {
                    Asked::Read(Form::Transaction) => MAX_PARTS,
                    _ => MAX_INPUT as u64,
                };
                format!(
                    "it is over {most} bytes, more than this library takes. Ask the sender for a \
                     smaller {noun}."
                )
            }
            (Reason::Short, _) => format!(
                "the bytes end inside the field that starts here. Ask the sender for the whole \
                 {noun}, and check that this is one."
            ),
            (Reason::LongVarint, _) => format!(
                "the number here has more bytes than it needs, which is more than this library \
                 takes: it takes the shortest form alone. Ask the sender for a {noun} with numbers \
                 in that form."
            ),
            (Reason::BadHeight, Asked::ToBump) => {
                "the proof has no nodes: its transaction is alone in the block, and no BUMP can say \
                 so. Keep the TSC proof."
                    .to_string()
            }
            (Reason::BadHeight, _) => {
                format!("a tree of the height written here is not allowed. {software}.")
            }
            (Reason::OverLimit, Asked::Write) => format!(
                "this library takes 2 to {MAX_IDS} ids and a block height of at most {}; you gave \
                 more, or too few ids.",
                u32::MAX
            ),
            (Reason::OverLimit, Asked::Page) => {
                format!("that is more than this library takes, which is {MAX_PAGE} ids at once.")
            }
            (Reason::OverLimit, Asked::Merge) => format!(
                "a level of the merged BUMP would have more than {MAX_LEAVES} leaves. Keep both, or \
                 ask for BUMPs of fewer transactions."
            ),
            (Reason::OverLimit, Asked::Order) => {
                format!(
                    "that is more than this library takes, which is {MAX_TRANSACTIONS} transactions \
                     at once."
                )
            }
            (Reason::OverLimit, _) => format!(
                "the count or block height here is more than this library takes. Ask the sender for \
                 a smaller {noun}."
            ),
            (Reason::BadOffset, Asked::Write) => {
                "you chose a position outside the list; the first id has position 0.".to_string()
            }
            (Reason::BadOffset, _) => {
                format!("the position written here lies outside its layer. {software}.")
            }
            (Reason::BadFlag, _) => format!(
                "the byte here says what follows, and has none of the values allowed. {software}."
            ),
            (Reason::Repeated, _) => {
                format!("the position here stands in its level already. {software}.")
            }
            (Reason::Extra, _) => format!(
                "the {noun} ends before this byte, and more bytes follow. Ask the sender for the \
                 {noun} alone."
            ),
            (Reason::BadVersion, _) => "the first four bytes are not 0100beef, so this is no BEEF \
                 of that version. Ask the sender for one."
                .to_string(),
            (Reason::BadTx, _) if self.node_sized => {
                "the transaction that starts here has 64 bytes, as two nodes of a tree have, so that \
                 a node of a block can pose as this payment. Don't accept it; ask the sender for \
                 one of another size."
                    .to_string()
            }
            (Reason::BadTx, Asked::Prove(_) | Asked::Read(Form::Tsc) | Asked::ToBump) => format!(
                "the transaction that starts here is not sound, or not as long as the proof says. \
                 {software}."
            ),
            (Reason::BadTx, _) => format!(
                "the count here is 0, but a transaction has an input and an output at least. \
                 {software}."
            ),
            (Reason::Empty, _) => {
                "the bundle has no transaction. Ask the sender for one with the payment in it."
                    .to_string()
            }
            (Reason::NotListed, Asked::Judge) => {
                "the BUMP that this transaction names does not list it. The sender must add the \
                 BUMP of the block that it is in."
                    .to_string()
            }
            (Reason::NotListed, Asked::Clients) if self.which.is_some() => {
                "no leaf is marked as a client's, so there is no root to merge by. Ask the sender \
                 for a BUMP with its clients marked."
                    .to_string()
            }
            (Reason::NotListed, Asked::Clients) => {
                "no leaf is marked as a client's, so there is nothing to check. Ask about an id \
                 with prove."
                    .to_string()
            }
            (Reason::NotListed, Asked::Write) => "you chose no position.".to_string(),
            (Reason::NotListed, Asked::Prove(Form::Beef)) => {
                "no BUMP of the bundle lists this id. A transaction that names none rests on its \
                 parents, which list beef shows: ask about these. Else check the id."
                    .to_string()
            }
            (Reason::NotListed, _) => format!(
                "the {noun} does not list this id. Check the id; if it is right, ask the sender for \
                 the proof of this transaction."
            ),
            (Reason::Missing, _) => format!("the sender must add {node}."),
            (Reason::Twin, Asked::Write) => {
                format!("{node}, equals its neighbour. No block has this list of ids.")
            }
            (Reason::Twin, _) => format!(
                "{node}, equals the hash that it is paired with on its right, which no sound block \
                 shows. Don't accept it; ask the sender for a proof from another source."
            ),
            (Reason::RootsDiffer, Asked::Merge) => {
                "the two contradict each other: at one place they have different leaves, or a leaf \
                 of one is wrong that only the other's clients need. diff shows where they differ; \
                 keep both, and ask the sender of the wrong one for one without it."
                    .to_string()
            }
            (Reason::RootsDiffer, Asked::Clients) => {
                "the client leaves lead to different roots, so they are not all in one block. Ask \
                 the sender for a BUMP of one block."
                    .to_string()
            }
            (Reason::RootsDiffer, _) => {
                "the proof leads to another root than the one that it names. Ask the sender for the \
                 proof of this transaction in this block."
                    .to_string()
            }
            (Reason::Untrusted, _) => {
                "its proof leads to a root that is not in your list. Bring the list up to date; if \
                 the root is still not in it, don't accept the payment."
                    .to_string()
            }
            (Reason::BadIndex, _) => {
                format!("the bundle has no BUMP of the number written here. {software}.")
            }
            (Reason::SameTx, Asked::Write) => "two ids of your list are equal.".to_string(),
            (Reason::SameTx, Asked::Order) => {
                "two of the transactions are the same. Leave one of them out.".to_string()
            }
            (Reason::SameTx, _) => {
                "it stands in the bundle already. The sender must leave it out.".to_string()
            }
            (Reason::NoParent, _) => {
                "it spends a transaction that is not in the bundle before it. The sender must add \
                 that parent before it, or the BUMP of the block that this transaction is in."
                    .to_string()
            }
            (Reason::BadRoots, _) => "the list is not whole roots of 32 bytes.".to_string(),
            (Reason::NoRoom, _) => "the room for the answer is too small.".to_string(),
            (Reason::Unlike, Asked::Shorter) => {
                "the two lead to different roots, so one of them is not of this block. Compare both \
                 roots with the block's header."
                    .to_string()
            }
            (Reason::Unlike, Asked::Merge) => {
                "the two differ in block height, tree height or root, so they are not of one block, \
                 or one of them is wrong. Compare both roots with the block's header."
                    .to_string()
            }
            (Reason::Unlike, Asked::CompareDepths) => {
                "the two proofs and the transaction do not contradict each other: the roots \
                 differ, both proofs have as many layers, the places do not lie one above the \
                 other, or the transaction is not the one that the shorter proof proves."
                    .to_string()
            }
            (Reason::Unlike, _) => {
                "the two proofs differ in root, position or number of layers, so they do not \
                 contradict each other."
                    .to_string()
            }
            (Reason::SameId, _) => {
                "the two proofs agree: one id, at one position, under one root.".to_string()
            }
            (Reason::BadAmount, _) => format!(
                "the amount here is over {MAX_TOTAL} satoshi, or brings the outputs of its \
                 transaction over that, which is more than there is. {software}."
            ),
            (Reason::NoOutput, _) => {
                "it spends an output that its parent does not have. Don't accept the payment; ask \
                 the sender for one that spends what is there."
                    .to_string()
            }
            (Reason::SpentTwice, _) => {
                "it spends an output that was spent already, by itself or by an earlier \
                 transaction of the bundle. Don't accept the payment; the sender must leave one of \
                 the two out."
                    .to_string()
            }
            (Reason::TooLittle, _) => {
                "what it spends is not more than what it pays out and the fee that you ask for. Ask \
                 the sender for a payment that leaves more, or ask for a smaller fee."
                    .to_string()
            }
            (Reason::NoOrder, _) => {
                "some of the transactions spend each other in a circle, so none of them can come \
                 first. No one can make such hashes, as far as is known: keep the files, and report \
                 it."
                    .to_string()
            }
            (Reason::BadOrder, _) => {
                "the order does not hold each transaction once, after its parents among them. Ask \
                 for one without --check."
                    .to_string()
            }
            (reason, _) => format!("{}.", reason.meaning()),
        }
    }

    /// The same for scripts; a field that does not apply is null.
    pub fn json(&self) -> Json {
        let reason = self.refusal.reason;
        Json::Object(vec![
            ("number", u64::from(reason.number()).into()),
            ("name", reason.name().into()),
            ("input", self.which.into()),
            ("place", self.place().into()),
            ("transaction", self.transaction().into()),
            ("layer", self.sibling().map(|(layer, _)| layer).into()),
            ("sibling", self.sibling().map(|(_, sibling)| sibling).into()),
            ("words", self.words().into()),
        ])
    }

    /// Number, name and words, without "refused".
    pub fn short(&self) -> String {
        let reason = self.refusal.reason;
        let mut text = format!("{} {}", reason.number(), reason.name());
        if let Some(which) = self.which {
            text += &format!(" in the {which}");
        }
        if let Some(place) = self.place() {
            text += &format!(" at byte {place}");
        }
        if let Some(transaction) = self.transaction() {
            let at = if self.place().is_some() { "in" } else { "at" };
            text += &format!(" {at} transaction {transaction}");
        }
        text + ": " + &self.words()
    }
}

/// Whether a refusal blames the first byte of a transaction of 64 bytes.
fn is_node_sized(data: &[u8], refusal: Refusal) -> bool {
    let start = refusal.carried as usize;
    let Some(raw) = start.checked_add(64).and_then(|end| data.get(start..end)) else {
        return false;
    };
    let read = barrowtide::read_transaction(raw).map_err(|told| (told.reason, told.carried));
    refusal.reason == Reason::BadTx && read == Err((Reason::BadTx, 0))
}

impl fmt::Display for Refused {
    fn fmt(&self, f: &mut fmt::Formatter<'_>) -> fmt::Result {
        write!(f, "refused {}", self.short())
    }
}

#[cfg(test)]
mod tests {
    use super::*;

    /// Each reason has words of its own, though the compiler does not ask for them.
    #[test]
    fn every_reason() {
        let Err(refusal) = barrowtide::read_bump(&[]) else { panic!("nothing is no BUMP") };
        for reason in (1..).map_while(Reason::from_number) {
            let mut refusal = refusal;
            refusal.reason = reason;
            let words = Refused::new(refusal, Asked::Judge).words();
            assert_ne!(words, format!("{}.", reason.meaning()));
        }
    }
}
