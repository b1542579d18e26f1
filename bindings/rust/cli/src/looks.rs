//! What a file that was refused looks like, if it is of another form than the one asked for.

use crate::words::Form;

const FORMS: [Form; 5] = [Form::Bump, Form::Cmp, Form::Tsc, Form::Transaction, Form::Beef];

/// Whether the library reads the whole of it as one of this form.
fn reads(form: Form, data: &[u8]) -> bool {
    match form {
        Form::Bump => barrowtide::read_bump(data).is_ok(),
        Form::Cmp => barrowtide::read_cmp(data).is_ok(),
        Form::Tsc => barrowtide::read_tsc(data).is_ok(),
        Form::Transaction => barrowtide::read_transaction(data).is_ok(),
        Form::Beef => barrowtide::read_beef(data).is_ok(),
    }
}

/// The form that the bytes look like, where they are not one of the form asked for: the only one
/// that reads them whole, or the one whose first four bytes they have. Without a hash in them they
/// look like nothing.
pub fn like(data: &[u8], asked: Form) -> Option<&'static str> {
    if data.len() <= 32 || reads(asked, data) {
        return None;
    }
    let mut others = FORMS.into_iter().filter(|form| *form != asked && reads(*form, data));
    if let (Some(form), None) = (others.next(), others.next()) {
        return Some(form.one());
    }
    match data.first_chunk()? {
        [0x01, 0x00, 0xbe, 0xef] if asked != Form::Beef => Some(Form::Beef.one()),
        [0x02, 0x00, 0xbe, 0xef] => Some("a BEEF V2 (BRC-96), which this library does not take"),
        [0x01, 0x01, 0x01, 0x01] => {
            Some("an Atomic BEEF (BRC-95), which this library does not take")
        }
        _ => None,
    }
}
