//! The commands about a BEEF bundle and its transactions. What the library answers is the verdict;
//! what is shown beside it comes from the same bytes, and must agree with it.

use barrowtide::{Blames, Hash, Proof, Reason, Received, Record, Refusal, TransactionReader};
use barrowtide::{Verdict, MAX_INPUT};

use crate::answer::{Answer, Failure, Told};
use crate::bundle::{Bundle, Entry, Transaction};
use crate::commands::{bytes, counted, picture, proof_fields, proof_text, refused, unreadable};
use crate::input::{self, Word};
use crate::json::{Fields, Json};
use crate::words::{Asked, Form, Refused};

/// Whose word a block height is.
const SENDER: &str = "by the sender's word";

/// Whether bytes start as a BEEF does; no BUMP does.
pub fn is_beef(data: &[u8]) -> bool {
    data.starts_with(&[0x01, 0x00, 0xbe, 0xef])
}

/// The parts of a bundle.
fn parts(data: &[u8]) -> Result<Bundle<'_>, Failure> {
    let told = barrowtide::read_beef(data).map_err(refused(Asked::Read(Form::Beef), data))?;
    Bundle::of(data, &told).ok_or_else(unreadable)
}

pub fn judge(words: &[Word]) -> Answer {
    let (fee, mut words) = input::option("--fee", words)?;
    let cost = input::flag("--cost", &mut words);
    let [beef, roots] = words[..] else { return Err(Failure::Misused) };
    let fee = fee.map_or(Ok(0), |word| input::number("fee", word))?;
    let (data, roots) = (input::bytes(beef)?, input::hashes(roots)?);
    let (mut told, work) = match barrowtide::judge(&data, &roots, fee) {
        Ok(verdict) => {
            let work = verdict.work;
            (accepted(&data, &roots, verdict)?, Some(work))
        }
        Err(refusal) => {
            let (text, fields) = refused_bundle(&data, &roots, refusal)?;
            (Told { accepted: false, ..Told::text(text, fields) }, refusal.work)
        }
    };
    if let Some(work) = work.filter(|_| cost) {
        told.add(&format!("SHA-256 compressions: {work}\n"), ("compressions", work.into()));
    }
    Ok(told)
}

/// An accepted bundle: the table, and of each transaction that is mined the root.
fn accepted(data: &[u8], roots: &[Hash], verdict: Verdict) -> Answer {
    let bundle = parts(data)?;
    let proofs = bundle.proofs().ok_or_else(unreadable)?;
    let Verdict { records, .. } = verdict;
    let count = counted(records.len() as u64, "transaction", "transactions");
    let mut text = format!(
        "accepted: each transaction is mined under a trusted root or spends what earlier ones of \
         the bundle pay, once, and leaves more than the fee; {count}\n"
    );
    text += "  no     start    length  anchored  bump    position  outputs             total  id\n";
    let (mut anchors, mut rows) = (String::new(), Vec::new());
    if records.len() != bundle.entries.len() {
        return Err(unreadable());
    }
    for (number, (record, entry)) in records.iter().zip(&bundle.entries).enumerate() {
        let proof = match &proofs[number] {
            None => None,
            Some(Ok(proof)) if roots.contains(&proof.root) => Some(proof),
            Some(_) => return Err(unreadable()),
        };
        if !agrees(record, entry, proof) {
            return Err(unreadable());
        }
        let anchor = entry.bump.zip(proof);
        let height = anchor.map(|(bump, _)| bundle.bumps[bump].head.block_height);
        text += &row(number, record);
        if let (Some((_, proof)), Some(height)) = (anchor, height) {
            anchors += &format!("{number:4}  {height:12}  {}\n", proof.root);
        }
        let mut fields = record_fields(record);
        fields.push(("root", proof.map(|proof| proof.root.to_string()).into()));
        fields.push(("block_height", height.into()));
        rows.push(Json::Object(fields));
    }
    if !anchors.is_empty() {
        text += &format!("mined under these roots, the block height {SENDER}:\n");
        text += "  no  block height  root\n";
        text += &anchors;
    }
    Ok(Told::text(text, vec![("transactions", Json::List(rows))]))
}

/// Whether a record of the table is of this transaction, and its proof says the same.
fn agrees(record: &Record, entry: &Entry, proof: Option<&Proof>) -> bool {
    let Entry { at, transaction, bump } = entry;
    let told = (record.start, record.length, record.id, record.outputs, u128::from(record.total));
    let outputs = transaction.outputs.len() as u64;
    let length = (at.end - at.start) as u64;
    let anchored = record.is_anchored();
    told == (at.start as u64, length, transaction.id, outputs, transaction.total())
        && anchored.then_some(record.bump as usize) == *bump
        && anchored.then_some(record.position) == proof.map(|proof| proof.position)
}

fn row(number: usize, record: &Record) -> String {
    let (anchored, bump, position) = if record.is_anchored() {
        ("yes", record.bump.to_string(), record.position.to_string())
    } else {
        ("no", "-".to_string(), "-".to_string())
    };
    let Record { start, length, id, outputs, total, .. } = record;
    format!(
        "{number:4}  {start:8}  {length:8}  {anchored:8}  {bump:>4}  {position:>10}  {outputs:7}  \
         {total:16}  {id}\n"
    )
}

fn record_fields(record: &Record) -> Fields {
    let anchored = record.is_anchored();
    vec![
        ("start", record.start.into()),
        ("length", record.length.into()),
        ("id", record.id.to_string().into()),
        ("anchored", anchored.into()),
        ("bump", anchored.then_some(u64::from(record.bump)).into()),
        ("position", anchored.then_some(record.position).into()),
        ("outputs", record.outputs.into()),
        ("total", record.total.into()),
    ]
}

/// A refused bundle: which transaction it is about, and by which BUMP.
fn refused_bundle(
    data: &[u8],
    roots: &[Hash],
    refusal: Refusal,
) -> Result<(String, Fields), Failure> {
    let refused = Refused::of(data, refusal, Asked::Judge);
    let (mut text, mut fields) = (format!("{refused}\n"), vec![("refusal", refused.json())]);
    if refusal.blames != Blames::Transaction {
        return Ok((text, fields));
    }
    let bundle = parts(data)?;
    let number = refusal.carried as usize;
    let entry = bundle.entries.get(number).ok_or_else(unreadable)?;
    let id = entry.transaction.id;
    text += &format!("id        {id}\n");
    fields.push(("id", id.to_string().into()));
    fields.push(("bump", entry.bump.into()));
    if let Some(bump) = entry.bump {
        let height = bundle.bumps.get(bump).ok_or_else(unreadable)?.head.block_height;
        text += &format!("bump      {bump}, block height {height} {SENDER}\n");
        fields.push(("block_height", height.into()));
        if refusal.reason == Reason::Untrusted {
            let proof = bundle.bump(bump).map(|data| barrowtide::prove_bump(data, &id));
            let Some(Ok(Proof { root, .. })) = proof else { return Err(unreadable()) };
            if roots.contains(&root) {
                return Err(unreadable());
            }
            text += &format!("root      {root}\n");
            text += &format!("look up   the root of the block at height {height}\n");
            fields.push(("root", root.to_string().into()));
        }
    } else {
        text += "bump      none\n";
    }
    if refusal.reason == Reason::NoParent {
        let parents = bundle.parents();
        let missing = parents[number].iter().position(Option::is_none);
        let input = missing.and_then(|input| entry.transaction.inputs.get(input));
        let parent = input.ok_or_else(unreadable)?.parent;
        text += &format!("parent    {parent}, not in the bundle before it\n");
        fields.push(("parent", parent.to_string().into()));
    }
    Ok((text, fields))
}

/// What a bundle holds; of one that is refused, what is whole before the place of the refusal.
pub fn list(data: &[u8]) -> Answer {
    let told = match barrowtide::read_beef(data) {
        Ok(told) => told,
        Err(refusal) => return Ok(list_refused(data, refusal)),
    };
    let bundle = Bundle::of(data, &told).ok_or_else(unreadable)?;
    let mut text =
        "accepted: a BEEF bundle, well formed; judge says whether it can be trusted\n".to_string();
    let mut fields = vec![("bumps", told.bumps.into()), ("transactions", told.transactions.into())];
    describe(&bundle, &mut text, &mut fields);
    Ok(Told::text(text, fields))
}

fn list_refused(data: &[u8], refusal: Refusal) -> Told {
    let refused = Refused::of(data, refusal, Asked::Read(Form::Beef));
    let (mut text, mut fields) = (format!("{refused}\n"), vec![("refusal", refused.json())]);
    let place = refusal.carried as usize;
    let place = (refusal.blames == Blames::Place && is_beef(data)).then_some(place);
    let whole = place.map(|place| Bundle::before(data, place));
    if let Some(bundle) = whole.filter(|bundle| !bundle.is_empty()) {
        let place = refusal.carried;
        text += &format!("what is whole before byte {place}, and no part of an answer:\n");
        let mut before = Vec::new();
        describe(&bundle, &mut text, &mut before);
        fields.push(("whole_before", Json::Object(before)));
    }
    Told { accepted: false, ..Told::text(text, fields) }
}

fn describe(bundle: &Bundle, text: &mut String, fields: &mut Fields) {
    *text += &format!("bumps         {}\n", bundle.bumps.len());
    *text += &format!("transactions  {}\n", bundle.entries.len());
    let mut bumps = Vec::new();
    for (number, part) in bundle.bumps.iter().enumerate() {
        let data = bundle.bytes(&part.at);
        let (start, length) = (part.at.start, data.len());
        let barrowtide::Bump { block_height, tree_height, leaves } = part.head;
        *text += &format!("bump {number}\n  start         {start}\n  length        {length}\n");
        *text += &format!("  block height  {block_height}, {SENDER}\n");
        *text += &format!("  tree height   {tree_height}\n  leaves        {leaves}\n");
        let root = barrowtide::check_clients(data);
        let root = root.map_err(|refusal| Refused::new(refusal, Asked::Clients));
        *text += &match &root {
            Ok(root) => format!("  root          {root}, of all clients\n"),
            Err(refused) => format!("  root          none: {}\n", refused.short()),
        };
        bumps.push(Json::Object(vec![
            ("start", start.into()),
            ("length", length.into()),
            ("block_height", block_height.into()),
            ("tree_height", tree_height.into()),
            ("leaves", leaves.into()),
            ("root", root.as_ref().ok().map(Hash::to_string).into()),
            ("refusal", root.as_ref().err().map_or(Json::Null, Refused::json)),
        ]));
    }
    let parents = bundle.parents();
    let mut transactions = Vec::new();
    for (number, (entry, parents)) in bundle.entries.iter().zip(&parents).enumerate() {
        let Entry { at, transaction, bump } = entry;
        let (start, length, id) = (at.start, at.end - at.start, transaction.id);
        *text += &format!("transaction {number}\n  id            {id}\n");
        *text += &format!("  start         {start}\n  length        {length}\n");
        *text += &match bump {
            Some(bump) => format!("  bump          {bump}\n"),
            None => "  bump          none, so each input must spend an earlier one\n".to_string(),
        };
        let mut entry = vec![
            ("start", start.into()),
            ("length", length.into()),
            ("id", id.to_string().into()),
            ("bump", (*bump).into()),
        ];
        describe_transaction(transaction, Some(parents), "  ", text, &mut entry);
        transactions.push(Json::Object(entry));
    }
    fields.push(("bump_list", Json::List(bumps)));
    fields.push(("transaction_list", Json::List(transactions)));
}

/// Inputs and outputs; in a bundle with the number of each parent that stands before.
fn describe_transaction(
    transaction: &Transaction,
    parents: Option<&[Option<usize>]>,
    indent: &str,
    text: &mut String,
    fields: &mut Fields,
) {
    let Transaction { inputs, outputs, .. } = transaction;
    *text += &format!("{indent}inputs        {}\n", inputs.len());
    let mut list = Vec::new();
    for (number, input) in inputs.iter().enumerate() {
        let found = parents.and_then(|parents| parents[number]);
        let said = match found {
            Some(parent) => format!(", transaction {parent} of the bundle"),
            None => String::new(),
        };
        *text += &format!("{number:12}  output {} of {}{said}\n", input.output, input.parent);
        list.push(Json::Object(vec![
            ("parent", input.parent.to_string().into()),
            ("output", u64::from(input.output).into()),
            ("transaction", found.into()),
        ]));
    }
    fields.push(("input_list", Json::List(list)));
    *text += &format!("{indent}outputs       {}\n", outputs.len());
    for (number, amount) in outputs.iter().enumerate() {
        *text += &format!("{number:12}  {amount} satoshi\n");
    }
    fields.push(("amounts", Json::List(outputs.iter().map(|amount| (*amount).into()).collect())));
}

/// In parts, so that it may be longer than the memory; what it spends and pays is listed of one that
/// the library takes whole.
pub fn list_transaction(word: &Word) -> Answer {
    let mut reader = TransactionReader::new();
    let (mut kept, mut length) = (Vec::new(), 0);
    input::in_parts(word, |part| {
        length += part.len() as u64;
        if length <= MAX_INPUT as u64 {
            kept.extend_from_slice(part);
        } else {
            kept.truncate(1 << 16);
        }
        reader.push(part).is_ok()
    })?;
    let received = reader.finish().map_err(refused(Asked::Read(Form::Transaction), &kept))?;
    let Received { length, inputs, outputs, id } = received;
    let mut text = format!("accepted: a transaction\nid            {id}\nlength        {length}\n");
    let mut fields = vec![
        ("id", id.to_string().into()),
        ("length", length.into()),
        ("inputs", inputs.into()),
        ("outputs", outputs.into()),
    ];
    if length > MAX_INPUT as u64 {
        text += &format!("inputs        {inputs}, not listed of over {MAX_INPUT} bytes\n");
        text += &format!("outputs       {outputs}, not listed of over {MAX_INPUT} bytes\n");
        return Ok(Told::text(text, fields));
    }
    let transaction = Transaction::of(&kept).ok_or_else(unreadable)?;
    let counts = (transaction.inputs.len() as u64, transaction.outputs.len() as u64);
    if (transaction.id, counts) != (id, (inputs, outputs)) {
        return Err(unreadable());
    }
    describe_transaction(&transaction, None, "", &mut text, &mut fields);
    Ok(Told::text(text, fields))
}

pub fn extract(words: &[Word]) -> Answer {
    let [what, number, path] = words else { return Err(Failure::Misused) };
    let (one, many) = match what.text() {
        Some("bump") => ("BUMP", "BUMPs"),
        Some("tx") => ("transaction", "transactions"),
        _ => return Err(Failure::Misused),
    };
    let number = input::number("number", number)?;
    let data = input::bytes(path)?;
    let bundle = parts(&data)?;
    let (count, part) = {
        let at = usize::try_from(number).unwrap_or(usize::MAX);
        if one == "BUMP" {
            (bundle.bumps.len(), bundle.bumps.get(at).map(|part| &part.at))
        } else {
            (bundle.entries.len(), bundle.entries.get(at).map(|entry| &entry.at))
        }
    };
    let part = part.ok_or_else(|| {
        let has = counted(count as u64, one, many);
        Failure::unusable(format!("the bundle has {has}, counted from 0: there is no {number}"))
    })?;
    bytes(bundle.bytes(part).to_vec())
}

/// The BUMP of a bundle that is asked about an id: the one that the transaction with this id names,
/// or else the first that lists it; and what it is.
fn bump_for(bundle: &Bundle, id: &Hash) -> Result<(usize, String), Failure> {
    let number = bundle.find(id);
    if let Some((number, bump)) = number.and_then(|n| Some((n, bundle.entries[n].bump?))) {
        return Ok((bump, format!("BUMP {bump} of the bundle, which transaction {number} names")));
    }
    let mut last = None;
    for bump in 0..bundle.bumps.len() {
        match bundle.bump(bump).map(|data| barrowtide::prove_bump(data, id)) {
            Some(Err(refusal)) if refusal.reason == Reason::NotListed => last = Some(refusal),
            _ => {
                let from = format!("BUMP {bump} of the bundle, the first that lists the id");
                return Ok((bump, from));
            }
        }
    }
    Err(match last {
        Some(refusal) => Failure::Refused(Refused::new(refusal, Asked::Prove(Form::Beef))),
        None => Failure::unusable("the bundle has no BUMP, so nothing in it proves an id"),
    })
}

pub fn prove(path: &Word, id: &Hash) -> Answer {
    let data = input::bytes(path)?;
    let bundle = parts(&data)?;
    let (bump, from) = bump_for(&bundle, id)?;
    let height = bundle.bumps.get(bump).ok_or_else(unreadable)?.head.block_height;
    let by = format!("{from}, block height {height} {SENDER}\n");
    let answer = barrowtide::prove_bump(bundle.bump(bump).ok_or_else(unreadable)?, id);
    let (accepted, text, mut fields) = match answer {
        Ok(proof) => (true, proof_text(&proof) + &format!("by        {by}"), proof_fields(&proof)),
        Err(refusal) => {
            let refused = Refused::new(refusal, Asked::Prove(Form::Bump));
            (false, format!("{refused}\nby        {by}"), vec![("refusal", refused.json())])
        }
    };
    fields.push(("bump", bump.into()));
    fields.push(("block_height", height.into()));
    Ok(Told { accepted, ..Told::text(text, fields) })
}

pub fn draw(data: &[u8], id: Option<Hash>) -> Answer {
    let bundle = parts(data)?;
    let (bump, from) = match (id, bundle.bumps.len()) {
        (Some(id), _) => bump_for(&bundle, &id)?,
        (None, 1) => (0, "BUMP 0 of the bundle".to_string()),
        (None, count) => {
            let has = counted(count as u64, "BUMP", "BUMPs");
            return Err(Failure::unusable(format!("the bundle has {has}: give an id")));
        }
    };
    picture(bundle.bump(bump).ok_or_else(unreadable)?, id, Some(from))
}
