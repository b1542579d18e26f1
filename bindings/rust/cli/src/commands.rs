//! The commands: each makes one call of the library and says what it answered.

use std::borrow::Cow;

use barrowtide::{hex, Blames, Claim, Difference, Hash, Proof, Reason, Refusal, Side, MAX_PAGE};
use barrowtide::{LeafList, ListedLeaf, MAX_TRANSACTIONS};

use crate::answer::{Answer, Failure, Output, Told};
use crate::bundles;
use crate::draw;
use crate::input::{self, Word};
use crate::json::{Fields, Json};
use crate::leaves::{Kind, Leaf, Levels};
use crate::tsc::{Parts, Target};
use crate::words::{Asked, Form, Refused};

/// The refusal of a call over some bytes.
pub fn refused(asked: Asked, data: &[u8]) -> impl Fn(Refusal) -> Failure + '_ {
    move |refusal| Failure::Refused(Refused::of(data, refusal, asked))
}

/// "1 leaf", "2 leaves".
pub fn counted(count: u64, one: &str, many: &str) -> String {
    format!("{count} {}", if count == 1 { one } else { many })
}

/// What the library has read and the walk for showing it can't take apart: it never happens.
pub fn unreadable() -> Failure {
    Failure::unusable("this program and its library are not of one version")
}

/// A proof given on the command line: its form, its bytes, and the id that it is to prove.
struct Given {
    form: Form,
    data: Vec<u8>,
    id: Hash,
}

impl Given {
    /// Takes `bump FILE ID`, `cmp FILE ID` or `tsc FILE` from the front.
    fn take<'a, 'b>(words: &'a [&'b Word]) -> Result<(Self, &'a [&'b Word]), Failure> {
        let [form, path, rest @ ..] = words else { return Err(Failure::Misused) };
        let form = match form.text() {
            Some("bump") => Form::Bump,
            Some("cmp") => Form::Cmp,
            Some("tsc") => Form::Tsc,
            _ => return Err(Failure::Misused),
        };
        if form == Form::Tsc {
            return Ok((Self { form, data: input::bytes(path)?, id: Hash::default() }, rest));
        }
        let [id, rest @ ..] = rest else { return Err(Failure::Misused) };
        let id = input::id(id)?;
        Ok((Self { form, data: input::bytes(path)?, id }, rest))
    }

    fn prove(&self) -> Result<Proof, Refusal> {
        match self.form {
            Form::Bump => barrowtide::prove_bump(&self.data, &self.id),
            Form::Cmp => barrowtide::prove_cmp(&self.data, &self.id),
            _ => barrowtide::prove_tsc(&self.data),
        }
    }

    fn claim(&self) -> Claim<'_> {
        match self.form {
            Form::Bump => Claim::Bump { data: &self.data, id: self.id },
            Form::Cmp => Claim::Cmp { data: &self.data, id: self.id },
            _ => Claim::Tsc { data: &self.data },
        }
    }
}

pub fn prove(words: &[Word]) -> Answer {
    if let [form, path, id] = words {
        if form.text() == Some("beef") {
            return bundles::prove(path, &input::id(id)?);
        }
    }
    let words: Vec<&Word> = words.iter().collect();
    let (given, []) = Given::take(&words)? else { return Err(Failure::Misused) };
    let proof = given.prove().map_err(refused(Asked::Prove(given.form), &given.data))?;
    let (mut text, mut fields) = (proof_text(&proof), proof_fields(&proof));
    if given.form == Form::Tsc {
        let parts = tsc_parts(&given.data)?;
        if !parts.lead_to(&proof) {
            return Err(unreadable());
        }
        let compared = match parts.target {
            Target::BlockHash(_) => {
                "compared with nothing: look up the block of this hash, and compare its root"
            }
            Target::Header(..) => "it holds this root; its own hash and work are not looked at",
            Target::Root(_) => "it is this root",
        };
        text += &format!("target    {}\n          {compared}\n", parts.target_text());
        text += &format!("nodes     {}\n{}", parts.nodes.len(), parts.nodes_text());
        fields.push(("target", parts.target.word().into()));
        fields.push(("compared", parts.target.root().is_some().into()));
        fields.extend(parts.fields());
    }
    Ok(Told::text(text, fields))
}

/// A proof in lines.
pub fn proof_text(proof: &Proof) -> String {
    let Proof { id, position, layers, root } = proof;
    format!(
        "accepted: the id is under this root, and worth as much as the root is trusted\n\
         id        {id}\nposition  {position}\nlayers    {layers}\nroot      {root}\n"
    )
}

/// The fields of a proof.
pub fn proof_fields(proof: &Proof) -> Fields {
    vec![
        ("id", proof.id.to_string().into()),
        ("position", proof.position.into()),
        ("layers", proof.layers.into()),
        ("root", proof.root.to_string().into()),
    ]
}

pub fn clients(words: &[Word]) -> Answer {
    let [path] = words else { return Err(Failure::Misused) };
    let data = input::bytes(path)?;
    let root = barrowtide::check_clients(&data).map_err(refused(Asked::Clients, &data))?;
    let clients = Levels::of_bump(&data).ok_or_else(unreadable)?.clients() as u64;
    let (count, root) = (counted(clients, "client", "clients"), root.to_string());
    let text = format!("accepted: all clients lead to this root; {count}\nroot      {root}\n");
    Ok(Told::text(text, vec![("clients", clients.into()), ("root", root.into())]))
}

pub fn list(words: &[Word]) -> Answer {
    let [form, path] = words else { return Err(Failure::Misused) };
    match form.text() {
        Some("bump") => list_bump(&input::bytes(path)?),
        Some("cmp") => list_cmp(&input::bytes(path)?),
        Some("tsc") => list_tsc(&input::bytes(path)?),
        Some("transaction") => bundles::list_transaction(path),
        Some("beef") => bundles::list(&input::bytes(path)?),
        _ => Err(Failure::Misused),
    }
}

fn list_bump(data: &[u8]) -> Answer {
    let bump = barrowtide::read_bump(data).map_err(refused(Asked::Read(Form::Bump), data))?;
    let levels = Levels::of_bump(data).ok_or_else(unreadable)?;
    let (height, leaves) = (bump.tree_height, bump.leaves);
    let mut text = format!("accepted: a BUMP\nblock height  {}\n", bump.block_height);
    text += &format!("tree height   {height}\nleaves        {leaves}\n");
    text += &levels_text(&levels);
    let fields = vec![
        ("block_height", bump.block_height.into()),
        ("tree_height", height.into()),
        ("leaves", leaves.into()),
        ("levels", levels_json(&levels)),
    ];
    Ok(Told::text(text, fields))
}

fn list_cmp(data: &[u8]) -> Answer {
    let path = barrowtide::read_cmp(data).map_err(refused(Asked::Read(Form::Cmp), data))?;
    let levels = Levels::of_cmp(data).ok_or_else(unreadable)?;
    let (height, leaves) = (path.tree_height, path.leaves);
    let head =
        format!("accepted: a compound path\ntree height   {height}\nleaves        {leaves}\n");
    let fields = vec![
        ("tree_height", height.into()),
        ("leaves", leaves.into()),
        ("levels", levels_json(&levels)),
    ];
    Ok(Told::text(head + &levels_text(&levels), fields))
}

fn levels_text(levels: &Levels) -> String {
    let mut text = String::new();
    for (level, leaves) in levels.0.iter().enumerate() {
        text += &format!("level {level}, {}\n", counted(leaves.len() as u64, "leaf", "leaves"));
        for Leaf { offset, kind } in leaves {
            text += &format!("{offset:10}  {}\n", kind.text());
        }
    }
    text
}

fn levels_json(levels: &Levels) -> Json {
    let leaf = |leaf: &Leaf| {
        Json::Object(vec![("offset", leaf.offset.into()), ("leaf", kind_json(leaf.kind))])
    };
    let level = |leaves: &Vec<Leaf>| Json::List(leaves.iter().map(leaf).collect());
    Json::List(levels.0.iter().map(level).collect())
}

fn kind_json(kind: Kind) -> Json {
    let hash = kind.hash().map(|hash| hash.to_string());
    Json::Object(vec![("kind", kind.word().into()), ("hash", hash.into())])
}

/// The parts of a TSC proof.
fn tsc_parts(data: &[u8]) -> Result<Parts, Failure> {
    let proof = barrowtide::read_tsc(data).map_err(refused(Asked::Read(Form::Tsc), data))?;
    Parts::of(data, &proof).ok_or_else(unreadable)
}

fn list_tsc(data: &[u8]) -> Answer {
    let proof = barrowtide::read_tsc(data).map_err(refused(Asked::Read(Form::Tsc), data))?;
    let parts = tsc_parts(data)?;
    let holds = if proof.flags & 1 == 1 { "transaction" } else { "id" };
    let (id, index, nodes) = (parts.id, proof.index, proof.nodes);
    let compared = match parts.target {
        Target::BlockHash(_) => "compared with nothing, here and in prove tsc",
        Target::Header(..) | Target::Root(_) => "compared with nothing here; prove tsc compares it",
    };
    let text = format!(
        "accepted: a TSC proof\nholds     {holds}\nid        {id}\nindex     {index}\n\
         target    {}\n          {compared}\nnodes     {nodes}\n{}",
        parts.target_text(),
        parts.nodes_text()
    );
    let mut fields = vec![
        ("holds", holds.into()),
        ("target", parts.target.word().into()),
        ("index", index.into()),
        ("nodes", nodes.into()),
        ("id", id.to_string().into()),
    ];
    fields.extend(parts.fields());
    Ok(Told::text(text, fields))
}

pub fn compare(words: &[Word]) -> Answer {
    let (transaction, words) = input::option("--transaction", words)?;
    let (first, rest) = Given::take(&words)?;
    let (second, []) = Given::take(rest)? else { return Err(Failure::Misused) };
    if let Some(path) = transaction {
        return compare_depths(&first, &second, &input::bytes(path)?);
    }
    let strings = barrowtide::compare(first.claim(), second.claim()).map_err(|refusal| {
        let asked = Refused::new(refusal, Asked::Compare);
        Failure::Refused(of_proofs(&first, &second, refusal).unwrap_or(asked))
    })?;
    let (first, second) = (hex::encode(&strings.first), hex::encode(&strings.second));
    let text = format!(
        "accepted: the two proofs contradict each other, and here is how: two strings of 64 bytes \
         with one double SHA-256\nfirst   {first}\nsecond  {second}\n"
    );
    Ok(Told::text(text, vec![("first", first.into()), ("second", second.into())]))
}

/// A refusal of the first of two proofs, or else of the second.
fn of_proofs(first: &Given, second: &Given, refusal: Refusal) -> Option<Refused> {
    let of = |given: &Given| Refused::of(&given.data, refusal, Asked::Prove(given.form));
    if first.prove().is_err() {
        return Some(of(first).which("first"));
    }
    second.prove().is_err().then(|| of(second).which("second"))
}

fn compare_depths(first: &Given, second: &Given, transaction: &[u8]) -> Answer {
    let strings = barrowtide::compare_depths(first.claim(), second.claim(), transaction);
    let strings = strings.map_err(|refusal| {
        let rest = || match refusal.reason {
            Reason::Unlike => Refused::new(refusal, Asked::CompareDepths),
            _ => Refused::of(transaction, refusal, Asked::Read(Form::Transaction))
                .which("transaction"),
        };
        Failure::Refused(of_proofs(first, second, refusal).unwrap_or_else(rest))
    })?;
    let is_transaction = matches!(strings.first, Cow::Borrowed(_));
    let (one, other) = (hex::encode(&strings.first), hex::encode(&strings.second));
    let what = if is_transaction { ", the first of them the transaction" } else { "" };
    let text = format!(
        "accepted: the two proofs contradict each other, as one has the payment where the other \
         has a node, and here is how: two strings with one double SHA-256{what}\nfirst   {one}\n\
         second  {other}\n"
    );
    let fields = vec![
        ("first_is_transaction", is_transaction.into()),
        ("first", one.into()),
        ("second", other.into()),
    ];
    Ok(Told::text(text, fields))
}

pub fn write(words: &[Word]) -> Answer {
    let [height, ids, positions @ ..] = words else { return Err(Failure::Misused) };
    let height = input::number("block height", height)?;
    let positions = positions
        .iter()
        .map(|word| input::number("position", word))
        .collect::<Result<Vec<_>, _>>()?;
    let ids = input::hashes(ids)?;
    let written = barrowtide::write_bump(height, &ids, &positions);
    bytes(written.map_err(refused(Asked::Write, &[]))?)
}

/// A proof that was made.
pub fn bytes(made: Vec<u8>) -> Answer {
    let length = made.len();
    Ok(Told::bytes(made, String::new(), vec![("bytes", length.into())]))
}

pub fn page(words: &[Word]) -> Answer {
    let [path, ids] = words else { return Err(Failure::Misused) };
    let (data, ids) = (input::bytes(path)?, input::hashes(ids)?);
    let by_bump = Asked::Prove(Form::Bump);
    let whole = if ids.len() > MAX_PAGE { Asked::Page } else { by_bump };
    let answers = barrowtide::prove_page(&data, &ids).map_err(refused(whole, &data))?;
    let proved = answers.iter().filter(|answer| answer.is_ok()).count();
    let mut text = format!("proved: {proved} of {}\n", counted(ids.len() as u64, "id", "ids"));
    let mut rows = Vec::new();
    for (answer, id) in answers.iter().zip(&*ids) {
        let id = id.to_string();
        let (said, row) = match answer {
            Ok(proof) => {
                let Proof { position, layers, root, .. } = proof;
                let said = format!("proved at position {position}, {layers} layers, root {root}");
                let mut row: Fields = vec![("proved", true.into())];
                row.extend(proof_fields(proof));
                (said, row)
            }
            Err(refusal) => {
                let refused = Refused::new(*refusal, by_bump);
                let row = vec![
                    ("proved", false.into()),
                    ("id", id.clone().into()),
                    ("refusal", refused.json()),
                ];
                (refused.to_string(), row)
            }
        };
        text += &format!("{id}  {said}\n");
        rows.push(Json::Object(row));
    }
    let fields = vec![("proved", proved.into()), ("ids", Json::List(rows))];
    Ok(Told { accepted: proved == ids.len(), ..Told::text(text, fields) })
}

pub fn convert(words: &[Word]) -> Answer {
    let [to, path, word] = words else { return Err(Failure::Misused) };
    match to.text() {
        Some("to-bump") => to_bump(path, word),
        Some("to-tsc") => {
            let id = input::id(word)?;
            let data = input::bytes(path)?;
            let made = barrowtide::bump_to_tsc(&data, &id);
            bytes(made.map_err(refused(Asked::Prove(Form::Bump), &data))?)
        }
        _ => Err(Failure::Misused),
    }
}

fn to_bump(path: &Word, height: &Word) -> Answer {
    let wide = input::number("block height", height)?;
    let Ok(height) = u32::try_from(wide) else {
        return Err(Failure::unusable(format!("a block height is at most {}: {wide}", u32::MAX)));
    };
    let data = input::bytes(path)?;
    let made = barrowtide::tsc_to_bump(&data, height);
    bytes(made.map_err(refused(Asked::ToBump, &data))?)
}

pub fn index(words: &[Word]) -> Answer {
    let [path] = words else { return Err(Failure::Misused) };
    let data = input::bytes(path)?;
    let list = LeafList::build(&data).map_err(refused(Asked::Read(Form::Bump), &data))?;
    let count = counted(list.len() as u64, "leaf", "leaves");
    let mut text = format!(
        "accepted: a BUMP; each leaf with the place of its first byte, by level and offset; {count}\n"
    );
    text += " level                offset     place\n";
    let mut leaves = Vec::new();
    for ListedLeaf { level, offset, place } in list.iter() {
        text += &format!("{level:6}  {offset:20}  {place:8}\n");
        leaves.push(Json::Object(vec![
            ("level", level.into()),
            ("offset", offset.into()),
            ("place", place.into()),
        ]));
    }
    Ok(Told::text(text, vec![("leaves", Json::List(leaves))]))
}

pub fn merge(words: &[Word]) -> Answer {
    let [first, second] = words else { return Err(Failure::Misused) };
    let (first, second) = (input::bytes(first)?, input::bytes(second)?);
    let merged = LeafList::merge(&first, &second).map_err(|refusal| {
        let of = |data| Refused::of(data, refusal, Asked::Clients);
        Failure::Refused(if barrowtide::check_clients(&first).is_err() {
            of(&first).which("first")
        } else if barrowtide::check_clients(&second).is_err() {
            of(&second).which("second")
        } else {
            Refused::new(refusal, Asked::Merge)
        })
    })?;
    bytes(merged.bump)
}

pub fn order(words: &[Word]) -> Answer {
    let (proposal, paths) = input::option("--check", words)?;
    if paths.is_empty() {
        return Err(Failure::Misused);
    }
    let proposal = proposal.map(|word| input::numbers("number", word)).transpose()?;
    let set = input::transactions(&paths)?;
    let ids = ids_of(&set)?;
    let (data, count) = (set.concat(), set.len() as u64);
    let order = match proposal {
        None => barrowtide::order(&data, count),
        Some(order) => barrowtide::check_order(&data, count, &order).map(|()| order),
    };
    let order = order.map_err(|refusal| Failure::Refused(Refused::new(refusal, Asked::Order)))?;
    let numbers: Vec<String> = order.iter().map(u64::to_string).collect();
    let mut text = format!(
        "accepted: each transaction comes after its parents among them; {}\norder     {}\n",
        counted(count, "transaction", "transactions"),
        numbers.join(",")
    );
    for number in &order {
        text += &format!("{number:8}  {}\n", ids[*number as usize]);
    }
    let in_order = order.iter().map(|number| ids[*number as usize].to_string().into()).collect();
    let order = order.into_iter().map(Json::Number).collect();
    Ok(Told::text(text, vec![("order", Json::List(order)), ("ids", Json::List(in_order))]))
}

/// The ids of transactions. Each must be one by itself: end to end, one that is cut would be read on
/// into the next. Too many are left to the library, which says so first.
fn ids_of(set: &[Vec<u8>]) -> Result<Vec<Hash>, Failure> {
    let mut ids = Vec::new();
    if set.len() > MAX_TRANSACTIONS {
        return Ok(ids);
    }
    for (number, data) in set.iter().enumerate() {
        let read = barrowtide::read_transaction(data).map_err(|mut refusal| {
            let place = refusal.blames == Blames::Place;
            refusal.in_transaction = place.then_some(number as u64);
            Failure::Refused(Refused::of(data, refusal, Asked::Order))
        });
        ids.push(read?.id);
    }
    Ok(ids)
}

pub fn diff(words: &[Word]) -> Answer {
    let [first, second] = words else { return Err(Failure::Misused) };
    let (first, second) = (input::bytes(first)?, input::bytes(second)?);
    let differences = barrowtide::differences(&first, &second).map_err(|refusal| {
        let of = |data| Refused::of(data, refusal, Asked::Read(Form::Bump));
        Failure::Refused(match barrowtide::read_bump(&first) {
            Err(_) => of(&first).which("first"),
            Ok(_) => of(&second).which("second"),
        })
    })?;
    let heads = (barrowtide::read_bump(&first), barrowtide::read_bump(&second));
    let levels = (Levels::of_bump(&first), Levels::of_bump(&second));
    let ((Ok(first), Ok(second)), (Some(in_first), Some(in_second))) = (heads, levels) else {
        return Err(unreadable());
    };
    let mut text = if differences.is_empty() {
        "no difference: both hold the same, but perhaps in another order\n".to_string()
    } else {
        counted(differences.len() as u64, "difference\n", "differences\n")
    };
    let mut entries = Vec::new();
    for difference in differences {
        let (line, entry) = match difference {
            Difference::BlockHeight => {
                height_differs("block height", first.block_height, second.block_height)
            }
            Difference::TreeHeight => {
                height_differs("tree height", first.tree_height, second.tree_height)
            }
            Difference::Leaf { level, offset, side } => {
                let at = level as usize;
                let (one, other) = (in_first.at(at, offset), in_second.at(at, offset));
                leaf_differs(level, offset, side, one, other)
            }
        };
        text += &line;
        entries.push(Json::Object(entry));
    }
    Ok(Told::text(text, vec![("differences", Json::List(entries))]))
}

fn height_differs(what: &str, first: u64, second: u64) -> (String, Fields) {
    let line = format!("{what}: {first} in the first, {second} in the second\n");
    (line, vec![("what", what.into()), ("first", first.into()), ("second", second.into())])
}

fn leaf_differs(
    level: u64,
    offset: u64,
    side: Side,
    first: Option<Kind>,
    second: Option<Kind>,
) -> (String, Fields) {
    let said = |kind: Option<Kind>| kind.map_or_else(String::new, Kind::text);
    let (one, other) = (said(first), said(second));
    let differs = match side {
        Side::First => format!("only in the first: {one}"),
        Side::Second => format!("only in the second: {other}"),
        Side::Both => format!("{one} in the first, {other} in the second"),
    };
    let fields = vec![
        ("what", "leaf".into()),
        ("level", level.into()),
        ("offset", offset.into()),
        ("first", first.map_or(Json::Null, kind_json)),
        ("second", second.map_or(Json::Null, kind_json)),
    ];
    (format!("level {level}, offset {offset}: {differs}\n"), fields)
}

pub fn shorter(words: &[Word]) -> Answer {
    let [first, second, id] = words else { return Err(Failure::Misused) };
    let id = input::id(id)?;
    let (first, second) = (input::bytes(first)?, input::bytes(second)?);
    let by_bump = Asked::Prove(Form::Bump);
    let part = barrowtide::shorter(&first, &second, &id).map_err(|refusal| {
        let of = |data| Refused::of(data, refusal, by_bump);
        Failure::Refused(match refusal.reason {
            Reason::Unlike => Refused::new(refusal, Asked::Shorter),
            _ if barrowtide::prove_bump(&first, &id).is_err() => of(&first).which("first"),
            _ => of(&second).which("second"),
        })
    })?;
    // On a tie it is the first.
    let which = if first.len() <= second.len() { "first" } else { "second" };
    let (one, other) = (first.len(), second.len());
    let note =
        format!("the {which}: {} bytes; the first has {one}, the second {other}\n", part.len());
    let fields = vec![("which", which.into()), ("bytes", part.len().into())];
    Ok(Told::bytes(part.to_vec(), note, fields))
}

pub fn draw(words: &[Word]) -> Answer {
    let (path, id) = match words {
        [path] => (path, None),
        [path, id] => (path, Some(input::id(id)?)),
        _ => return Err(Failure::Misused),
    };
    let data = input::bytes(path)?;
    if bundles::is_beef(&data) {
        return bundles::draw(&data, id);
    }
    picture(&data, id, None)
}

/// The picture of a BUMP, and of the climb of an id, or else of its first client; the line says where
/// the BUMP is from.
pub fn picture(data: &[u8], id: Option<Hash>, from: Option<String>) -> Answer {
    let head = barrowtide::read_bump(data).map_err(refused(Asked::Read(Form::Bump), data))?;
    let levels = Levels::of_bump(data).ok_or_else(unreadable)?;
    let mut notes: Vec<String> = from.into_iter().collect();
    let chosen = if id.is_none() { levels.first_client() } else { None };
    if chosen.is_some() {
        notes.push("no id was given, so the first client's climb is drawn".to_string());
    }
    let Some(id) = id.or(chosen) else {
        let svg = draw::picture(&head, &levels, notes, None).ok_or_else(unreadable)?;
        return Ok(Told { output: Output::Svg(svg), ..Told::text(String::new(), Vec::new()) });
    };
    let answer = barrowtide::prove_bump(data, &id);
    let said = answer.map_err(|refusal| Refused::new(refusal, Asked::Prove(Form::Bump)));
    let svg = draw::picture(&head, &levels, notes, Some((&id, &said))).ok_or_else(unreadable)?;
    let (note, fields) = match &said {
        Ok(proof) => (String::new(), proof_fields(proof)),
        Err(refused) => (format!("{refused}\n"), vec![("refusal", refused.json())]),
    };
    Ok(Told { accepted: said.is_ok(), output: Output::Svg(svg), note, fields })
}
