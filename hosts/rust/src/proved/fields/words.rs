// Made from crates/fields/src/words.rt by tools/portable: do not change it here.
//! The registers of an image of a form.

use super::super::bits::bytes::put_word;
use super::super::bits::bytes::word_at;
use super::super::device::map::Plain;
use super::super::image::form::places_of;
use super::super::image::form::Form;

/// ```text
/// requires { length image.now ≡ form_length (form_view form) }
/// ensures { Reads image.now result (λ d. d.core.lines.mask) }
/// ```
pub fn mask(image: &[u8], form: Form) -> u64 {
    let p = places_of(form);
    word_at(image, p.int_mask)
}

/// ```text
/// requires { length image.now ≡ form_length (form_view form) }
/// ensures { Reads image.now result (λ d. d.core.lines.irr) }
/// ```
pub fn irr(image: &[u8], form: Form) -> u64 {
    let p = places_of(form);
    word_at(image, p.intirr)
}

/// ```text
/// requires { length image.now ≡ form_length (form_view form) }
/// ensures { Reads image.now result (λ d. d.core.lines.isr) }
/// ```
pub fn isr(image: &[u8], form: Form) -> u64 {
    let p = places_of(form);
    word_at(image, p.intisr)
}

/// ```text
/// requires { length image.old ≡ form_length (form_view form) }
/// ensures { Becomes image.old image.new (λ d. with_lines d (with_mask d.core.lines x)) }
/// ```
pub fn put_mask(image: &mut [u8], form: Form, x: u64) {
    let p = places_of(form);
    put_word(image, p.int_mask, x);
}

/// IRR and its copy; in a form that has none, IRR twice.
///
/// ```text
/// requires { length image.old ≡ form_length (form_view form) }
/// ensures { Becomes image.old image.new (λ d. with_lines d (with_irr d.core.lines x)) }
/// ```
pub fn put_irr(image: &mut [u8], form: Form, x: u64) {
    let p = places_of(form);
    put_word(image, p.intirr, x);
    put_word(image, p.last_intirr, x);
}

/// ```text
/// requires { length image.old ≡ form_length (form_view form) }
/// ensures { Becomes image.old image.new (λ d. with_lines d (with_isr d.core.lines x)) }
/// ```
pub fn put_isr(image: &mut [u8], form: Form, x: u64) {
    let p = places_of(form);
    put_word(image, p.intisr, x);
}

// ---- the registers that are only stored

/// ```text
/// ensures { result ≡ place (form_view form) (word (stored (plain_view register))) }
/// ```
fn place_of(form: Form, register: Plain) -> usize {
    let p = places_of(form);
    match register {
        Plain::HtmsiEn => p.htmsi_en,
        Plain::Edge => p.intedge,
        Plain::Pol => p.int_polarity,
        Plain::Auto0 => p.auto_ctrl0,
        Plain::Auto1 => p.auto_ctrl1,
    }
}

/// ```text
/// requires { length image.now ≡ form_length (form_view form) }
/// ensures { Reads image.now result (λ d. plain d.core.stored (plain_view register)) }
/// ```
pub fn plain(image: &[u8], form: Form, register: Plain) -> u64 {
    word_at(image, place_of(form, register))
}

/// ```text
/// requires { length image.old ≡ form_length (form_view form) }
/// ensures { Becomes image.old image.new (λ d. with_stored d (with_plain d.core.stored (plain_view register) x)) }
/// ```
pub fn put_plain(image: &mut [u8], form: Form, register: Plain, x: u64) {
    put_word(image, place_of(form, register), x);
}
