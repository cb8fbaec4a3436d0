// Made from crates/stored/src/save_words.rt by tools/portable: do not change it here.
//! What is saved word by word: the contents of an image, and its registers.

use super::super::bits::bytes::put_word;
use super::super::device::state::Lines;
use super::super::device::state::Stored;
use super::super::image::form::contents_of;
use super::super::image::form::places_of;
use super::super::image::form::Form;

/// ```text
/// requires { length image.old ≡ form_length (form_view form) }
/// ensures { image.new ≡ contents_of (form_view form) ++ drop (contents_length (form_view form)) image.old }
/// ```
pub fn put_contents(image: &mut [u8], form: Form) {
    let c = contents_of(form);
    put_word(image, 0, c.first);
    put_word(image, 8, c.second);
    put_word(image, 14, c.third);
    // where there are four bodies these are all
    let Form::Numbered = form else {
        return;
    };
    put_word(image, c.last_at, c.last);
}

/// ```text
/// requires { length image.old ≡ form_length (form_view form) }
/// ensures { SavesLines (form_view form) lines image.old image.new }
/// ```
pub fn save_lines(image: &mut [u8], form: Form, lines: Lines) {
    let p = places_of(form);
    put_word(image, p.int_mask, lines.int_mask);
    put_word(image, p.last_intirr, lines.intirr);
    put_word(image, p.intirr, lines.intirr);
    put_word(image, p.intisr, lines.intisr);
}

/// ```text
/// requires { length image.old ≡ form_length (form_view form) }
/// ensures { SavesStored (form_view form) stored image.old image.new }
/// ```
pub fn save_stored(image: &mut [u8], form: Form, stored: Stored) {
    let p = places_of(form);
    put_word(image, p.htmsi_en, stored.htmsi_en);
    put_word(image, p.intedge, stored.intedge);
    put_word(image, p.int_polarity, stored.int_polarity);
    put_word(image, p.auto_ctrl0, stored.auto_ctrl0);
    put_word(image, p.auto_ctrl1, stored.auto_ctrl1);
}
