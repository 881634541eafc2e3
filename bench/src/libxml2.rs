//! libxml2 on a text, through its C functions (Debian: libxml2-dev).

use std::ffi::{c_char, c_int, c_void};
use std::ptr::null;

#[link(name = "xml2")]
extern "C" {
    fn xmlReadMemory(
        text: *const c_char,
        length: c_int,
        name: *const c_char,
        encoding: *const c_char,
        options: c_int,
    ) -> *mut c_void;
    fn xmlNewValidCtxt() -> *mut c_void;
    fn xmlValidateDocument(context: *mut c_void, document: *mut c_void) -> c_int;
    fn xmlFreeValidCtxt(context: *mut c_void);
    fn xmlDocDumpMemory(document: *mut c_void, text: *mut *mut u8, length: *mut c_int);
    fn xmlFreeDoc(document: *mut c_void);
}

extern "C" {
    /// What libxml2 frees its memory with, as nobody gives it another function here.
    fn free(memory: *mut c_void);
}

/// Parses a document and validates it by its own DTD. Panics where it is not valid.
pub fn validate(text: &[u8]) {
    with_document(text, |_| ());
}

/// Parses and validates a document and writes it out again; hands back the length of the text.
pub fn rewrite(text: &[u8]) -> usize {
    with_document(text, |document| {
        let (mut written, mut length) = (std::ptr::null_mut(), 0);
        // SAFETY: the document was parsed and is not freed yet; the text that is handed back is ours to free.
        unsafe {
            xmlDocDumpMemory(document, &mut written, &mut length);
            free(written.cast());
        }
        length as usize
    })
}

fn with_document<T>(text: &[u8], work: impl FnOnce(*mut c_void) -> T) -> T {
    let length = c_int::try_from(text.len()).expect("a short text");
    // SAFETY: the text has its length; what is made here is used while it is there and freed once.
    unsafe {
        let document = xmlReadMemory(text.as_ptr().cast(), length, null(), null(), 0);
        assert!(!document.is_null(), "the text is not well-formed");
        let context = xmlNewValidCtxt();
        assert_eq!(xmlValidateDocument(context, document), 1, "not valid");
        xmlFreeValidCtxt(context);
        let given = work(document);
        xmlFreeDoc(document);
        given
    }
}
