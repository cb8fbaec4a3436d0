// Made from crates/pch_pic_convert/src/load_words.rt by tools/portable: do not change it here.
//! The registers of a state from the bytes of an image, word by word. What is asked of an image is its length.

use super::super::bits::bytes::word_at;
use super::super::device::state::Lines;
use super::super::device::state::Stored;
use super::super::image::form::places_of;
use super::super::image::form::Form;

/// ```text
/// requires { length image.now ≡ form_length (form_view form) }
/// ensures { IsLines result (decode_as (form_view form) image.now).core.lines }
/// ```
pub fn load_lines(image: &[u8], form: Form) -> Lines {
    let p = places_of(form);
    let int_mask = word_at(image, p.int_mask);
    let intirr = word_at(image, p.intirr);
    let intisr = word_at(image, p.intisr);
    Lines {
        int_mask,
        intirr,
        intisr,
    }
}

/// ```text
/// requires { length image.now ≡ form_length (form_view form) }
/// ensures { IsStored result (decode_as (form_view form) image.now).core.stored }
/// ```
pub fn load_stored(image: &[u8], form: Form) -> Stored {
    let p = places_of(form);
    let htmsi_en = word_at(image, p.htmsi_en);
    let intedge = word_at(image, p.intedge);
    let int_polarity = word_at(image, p.int_polarity);
    let auto_ctrl0 = word_at(image, p.auto_ctrl0);
    let auto_ctrl1 = word_at(image, p.auto_ctrl1);
    Stored {
        htmsi_en,
        intedge,
        int_polarity,
        auto_ctrl0,
        auto_ctrl1,
    }
}
