//! The calls that the library exports, with a slice passed as a pointer and a length.
use crate::figures::Figures;

unsafe extern "C" {
    fn kurzhelim_rule_text(rules: *const u8, rules_len: usize) -> u32;
    fn kurzhelim_take_in(
        rules: *const u8,
        rules_len: usize,
        kind: u8,
        body: *const u8,
        body_len: usize,
        figures: *mut Figures,
        figures_len: usize,
    ) -> u32;
    fn kurzhelim_peek(
        rules: *const u8,
        rules_len: usize,
        codes: *const u8,
        codes_len: usize,
        rule: usize,
        instant: usize,
        activator: *mut u8,
        target: *mut u8,
    ) -> u32;
    fn kurzhelim_report(
        rules: *const u8,
        rules_len: usize,
        log: *const u8,
        log_len: usize,
        out: *mut u8,
        out_len: usize,
    ) -> usize;
}

pub fn rule_text(rules: &[u8]) -> u32 {
    // SAFETY: the call asks nothing but a slice, and keeps no pointer.
    unsafe { kurzhelim_rule_text(rules.as_ptr(), rules.len()) }
}

pub fn take_in(rules: &[u8], kind: u8, body: &[u8], figures: &mut [Figures]) -> u32 {
    // SAFETY: as above; the figures are laid out alike.
    unsafe {
        kurzhelim_take_in(
            rules.as_ptr(),
            rules.len(),
            kind,
            body.as_ptr(),
            body.len(),
            figures.as_mut_ptr(),
            figures.len(),
        )
    }
}

pub fn peek(
    rules: &[u8],
    codes: &[u8],
    rule: usize,
    instant: usize,
    activator: &mut u8,
    target: &mut u8,
) -> u32 {
    // SAFETY: as above.
    unsafe {
        kurzhelim_peek(
            rules.as_ptr(),
            rules.len(),
            codes.as_ptr(),
            codes.len(),
            rule,
            instant,
            activator,
            target,
        )
    }
}

pub fn report(rules: &[u8], log: &[u8], out: &mut [u8]) -> usize {
    // SAFETY: as above.
    unsafe {
        kurzhelim_report(
            rules.as_ptr(),
            rules.len(),
            log.as_ptr(),
            log.len(),
            out.as_mut_ptr(),
            out.len(),
        )
    }
}
