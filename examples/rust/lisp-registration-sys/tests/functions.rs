//! That the functions take and answer what those of the C header do: a C compiler is asked, where there is one.

mod header;

use lisp_registration_sys::*;

/// A type, as C names it.
trait CType {
    fn name() -> String;
}

/// A pointer to a function, as C names its type.
trait CFunction {
    fn name(self) -> String;
}

macro_rules! types {
    ($($type:ty: $name:expr,)*) => {
        $(impl CType for $type {
            fn name() -> String {
                $name.to_string()
            }
        })*
    };
}

macro_rules! structs {
    ($($name:ident),*) => { types! { $($name: concat!("struct ", stringify!($name)),)* } };
}

types! { (): "void", bool: "bool", u8: "uint8_t", u16: "uint16_t", u64: "uint64_t", usize: "size_t", }
structs!(lisp_address, lisp_locator, lisp_record, lisp_message, lisp_server, lisp_pair, lisp_nonce);
structs!(lisp_prefix, lisp_request, lisp_reply, lisp_encapsulated);
structs!(lisp_received, lisp_row, lisp_answer, lisp_replied, lisp_router_id, lisp_notice);
structs!(lisp_router, lisp_due, lisp_sent, lisp_seen);

impl<T: CType> CType for *const T {
    fn name() -> String {
        format!("const {} *", T::name())
    }
}

impl<T: CType> CType for *mut T {
    fn name() -> String {
        format!("{} *", T::name())
    }
}

macro_rules! functions_of {
    ($(($($parameter:ident),*))*) => {
        $(impl<R: CType, $($parameter: CType),*> CFunction
            for unsafe extern "C" fn($($parameter),*) -> R
        {
            fn name(self) -> String {
                format!("{} (*)({})", R::name(), [$($parameter::name()),*].join(", "))
            }
        })*
    };
}

functions_of! {
    (A) (A, B) (A, B, C) (A, B, C, D) (A, B, C, D, E) (A, B, C, D, E, F) (A, B, C, D, E, F, G)
    (A, B, C, D, E, F, G, H) (A, B, C, D, E, F, G, H, I) (A, B, C, D, E, F, G, H, I, J)
}

/// What C has to find true: the type of each function.
macro_rules! claims {
    ($($name:ident($($parameter:tt),*))*) => {
        [$(format!(
            "_Generic(&{}, {}: 1, default: 0)",
            stringify!($name),
            ($name as unsafe extern "C" fn($($parameter),*) -> _).name()
        )),*]
    };
}

#[test]
fn the_header_agrees() {
    let claims = claims! {
        lisp_registration_read_message(_, _, _)
        lisp_registration_read_record(_, _, _, _)
        lisp_registration_read_locator(_, _, _, _)
        lisp_registration_authentic(_, _, _, _)
        lisp_registration_sign(_, _, _, _)
        lisp_registration_write_message(_, _, _, _, _, _, _, _, _, _)
        lisp_registration_read_request(_, _, _)
        lisp_registration_read_itr_rloc(_, _, _, _, _)
        lisp_registration_read_eid(_, _, _, _, _)
        lisp_registration_read_reply(_, _, _)
        lisp_registration_read_encapsulated(_, _, _)
        lisp_registration_write_request(_, _, _, _, _, _, _, _)
        lisp_registration_write_reply(_, _, _, _, _, _, _, _)
        lisp_registration_write_encapsulated(_, _, _, _, _, _)
        lisp_registration_server_start(_, _, _)
        lisp_registration_server_stop(_)
        lisp_registration_server_restart(_)
        lisp_registration_server_reload(_, _, _, _)
        lisp_registration_server_pair(_, _, _)
        lisp_registration_server_receive(_, _, _, _, _, _, _, _, _)
        lisp_registration_server_expire(_, _)
        lisp_registration_server_row(_, _, _, _, _, _)
        lisp_registration_server_answer(_, _, _, _, _, _)
        lisp_registration_server_reply(_, _, _, _, _, _, _, _)
        lisp_registration_server_due(_, _, _)
        lisp_registration_server_notify(_, _, _, _, _, _, _)
        lisp_registration_server_resend(_, _, _, _, _, _)
        lisp_registration_router_pair(_, _, _, _, _)
        lisp_registration_router_start(_, _, _, _, _, _, _)
        lisp_registration_router_stop(_)
        lisp_registration_router_due(_, _, _)
        lisp_registration_router_send(_, _, _, _, _, _, _)
        lisp_registration_router_receive(_, _, _, _, _, _, _, _)
        lisp_registration_router_reply(_, _, _, _, _, _, _, _)
        lisp_registration_router_change(_, _, _, _, _, _)
    };
    header::agrees("functions.c", &claims);
}
