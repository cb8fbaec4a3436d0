// Made from crates/stored/src/save_reset.rt by tools/portable: do not change it here.
//! The device after reset as an image. Each form has an arm of its own, so that all places are constants there and the compiler stores sixteen bytes at a time.

use super::super::device::state::Lines;
use super::super::device::state::Stored;
use super::super::image::form::Form;
use super::reset_parts::save_ring;
use super::reset_parts::save_routes;
use super::save_parts::save_numbers;
use super::save_words::put_contents;
use super::save_words::save_lines;
use super::save_words::save_stored;

/// Byte n becomes n.
///
/// ```text
/// requires { length dst.old ≤ 256 }
/// ensures { dst.new ≡ up_from 0 (length dst.old) }
/// ```
fn put_order(dst: &mut [u8]) {
    for n in 0..dst.len() {
        dst[n] = n as u8;
    }
}

/// All fields but the vectors.
///
/// ```text
/// requires { length image.old ≡ form_length (form_view form) }
/// ensures { SavesOthers (form_view form) image.old image.new }
/// ```
fn save_others(image: &mut [u8], form: Form) {
    save_lines(
        image,
        form,
        Lines {
            int_mask: 0xffff_ffff_ffff_ffff,
            intirr: 0,
            intisr: 0,
        },
    );
    save_stored(
        image,
        form,
        Stored {
            htmsi_en: 0,
            intedge: 0,
            int_polarity: 0,
            auto_ctrl0: 0,
            auto_ctrl1: 0,
        },
    );
    save_routes(image, form, [1u8; 64]);
    save_ring(image, form, [0u8; 37]);
    save_numbers(image, form, [0u8; 34]);
}

/// The vector body is the part that starts at byte 158 or, in form 2, 150 or, with numbers, 155.
///
/// ```text
/// requires { length image.old ≡ form_length (form_view form) }
/// ensures { image.new ≡ encode_as (form_view form) reset (from_zero 0) }
/// ```
pub fn save_reset(image: &mut [u8], form: Form) {
    match form {
        Form::One => {
            put_contents(image, Form::One);
            put_order(&mut image[158..222]);
            save_others(image, Form::One);
        }
        Form::Two => {
            put_contents(image, Form::Two);
            put_order(&mut image[150..214]);
            save_others(image, Form::Two);
        }
        Form::Numbered => {
            put_contents(image, Form::Numbered);
            put_order(&mut image[155..219]);
            save_others(image, Form::Numbered);
        }
    }
}
