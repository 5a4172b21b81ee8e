//! The functions of the library of a request's fields, wrapped to take slices as those of `exports` are.

use crate::fowlcredenza as library;

/// A request, the buffer for a part of it, and the part's length.
type Part = unsafe extern "C" fn(*const u8, usize, *mut u8, usize, *mut usize) -> u32;

fn part(function: Part, request: &[u8], out: &mut [u8], len: &mut usize) -> u32 {
    unsafe {
        function(
            request.as_ptr(),
            request.len(),
            out.as_mut_ptr(),
            out.len(),
            len,
        )
    }
}

/// Algorithm, slot, operation and profile as words; their length is stored here, as the function stores none.
pub fn numbers(request: &[u8], out: &mut [u8], len: &mut usize) -> u32 {
    let number = unsafe {
        library::fowlcredenza_request_numbers(
            request.as_ptr(),
            request.len(),
            out.as_mut_ptr(),
            out.len(),
        )
    };
    if number == 0 {
        *len = 32;
    }
    number
}

pub fn authorization_digest(request: &[u8], out: &mut [u8], len: &mut usize) -> u32 {
    let function = library::fowlcredenza_request_authorization_digest;
    part(function, request, out, len)
}

pub fn key_id(request: &[u8], out: &mut [u8], len: &mut usize) -> u32 {
    part(library::fowlcredenza_request_key_id, request, out, len)
}

pub fn aux(request: &[u8], out: &mut [u8], len: &mut usize) -> u32 {
    part(library::fowlcredenza_request_aux, request, out, len)
}

pub fn proof(request: &[u8], out: &mut [u8], len: &mut usize) -> u32 {
    part(library::fowlcredenza_request_proof, request, out, len)
}
