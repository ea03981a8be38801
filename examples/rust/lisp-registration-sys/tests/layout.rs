//! That the structs and numbers are those of the C header: a C compiler is asked, where there is one.

mod header;

use lisp_registration_sys::*;
use std::mem::{align_of, offset_of, size_of};

/// What C has to find true: the size of each struct, and where each of its fields lies.
macro_rules! layouts {
    ($($name:ident { $($field:ident),* })*) => {
        [$(
            format!("sizeof(struct {}) == {}", stringify!($name), size_of::<$name>()),
            $(format!(
                "offsetof(struct {}, {}) == {}",
                stringify!($name), stringify!($field), offset_of!($name, $field)
            ),)*
        )*]
    };
}

/// What C has to find true: the value of each constant.
macro_rules! values {
    ($($name:ident),*) => { [$(format!("{} == {}", stringify!($name), $name)),*] };
}

fn claims() -> Vec<String> {
    let layouts = layouts! {
        lisp_address { family, octets }
        lisp_locator { priority, weight, m_priority, m_weight, local, probe, reachable, address, end }
        lisp_record { ttl, version, act, authoritative, mask_len, locator_count, eid, locators_at, end }
        lisp_message {
            nonce, site, xtr, kind, key_id, proxy, sec, eid_notify, use_ttl, merge, want_notify,
            record_count, records_at, records_end
        }
        lisp_prefix { mask_len, address }
        lisp_request {
            nonce, authoritative, probe, smr, pitr, smr_invoked, local, no_reply, itr_rloc_count, eid_count,
            source, itr_rlocs_at, eids_at, end
        }
        lisp_reply { nonce, probe, echo_nonce, sec, record_count, records_at }
        lisp_encapsulated { source, destination, port, message_at, message_length }
        lisp_server { core }
        lisp_pair { site, xtr, key_id, is_there }
        lisp_nonce { nonce, is_there }
        lisp_received { nonce, site, xtr, key_id, accepted, reply_length }
        lisp_row { nonce, site, accepted, life, xtr, from, key_id, proxy, is_there, record }
        lisp_answer { kind, to, record }
        lisp_replied { kind, to, length }
        lisp_router_id { site, xtr, is_there }
        lisp_notice { nonce, to, length }
        lisp_router { core }
        lisp_due { server, part, is_there }
        lisp_sent { nonce, must_save, to, length }
        lisp_seen { nonce, server, part, is_notice, reply_length }
    };
    let values = values![
        LISP_DONE,
        LISP_SHORT,
        LISP_AFI,
        LISP_MASK,
        LISP_KIND,
        LISP_ALGORITHM,
        LISP_AUTH_LENGTH,
        LISP_NO_IDS,
        LISP_TRAILING,
        LISP_RECORD,
        LISP_TOML,
        LISP_MISSING,
        LISP_BAD_VALUE,
        LISP_REPEATED,
        LISP_NO_SERVER,
        LISP_ROUTER_NONCE_SPENT,
        LISP_ROUTER_READ,
        LISP_ROUTER_NOT_MINE,
        LISP_WRONG_KEY,
        LISP_ROUTER_BAD_AUTH,
        LISP_STALE,
        LISP_NO_PART,
        LISP_READ,
        LISP_UNKNOWN_SITE,
        LISP_UNKNOWN_KEY,
        LISP_BAD_AUTH,
        LISP_MERGE_ASKED,
        LISP_NOT_ALLOWED,
        LISP_REPLAY,
        LISP_ROUTER,
        LISP_SOURCE,
        LISP_TTL,
        LISP_JUMP,
        LISP_ROUTERS,
        LISP_ROWS,
        LISP_NO_NOTICE,
        LISP_NOT_MINE,
        LISP_NOT_REGISTERED,
        LISP_TOO_LARGE,
        LISP_NONCE_SPENT,
        LISP_NOT_DUE,
        LISP_CLOCK,
        LISP_NOT_UTF8,
        LISP_NULL,
        LISP_LENGTH,
        LISP_ROOM,
        LISP_FIELD,
        LISP_COUNTS,
        LISP_OUT_OF_MEMORY,
        LISP_NO_ROUTER,
        LISP_REQUEST_SHORT,
        LISP_REQUEST_KIND,
        LISP_SECURITY,
        LISP_IP_VERSION,
        LISP_IP_HEADER_LENGTH,
        LISP_IP_LENGTH,
        LISP_FRAGMENT,
        LISP_PROTOCOL,
        LISP_IP_CHECKSUM,
        LISP_PORT,
        LISP_UDP_LENGTH,
        LISP_UDP_CHECKSUM,
        LISP_NO_RECORD,
        LISP_REQUEST_AFI,
        LISP_REQUEST_MASK,
        LISP_REQUEST_TRAILING,
        LISP_MAP_REGISTER,
        LISP_MAP_NOTIFY,
        LISP_MAP_NOTIFY_ACK,
        LISP_IPV4,
        LISP_IPV6,
        LISP_RECORDS_AT,
        LISP_REPLY_RECORDS_AT,
        LISP_ITR_RLOCS,
        LISP_EIDS,
        LISP_LOCATORS,
        LISP_MESSAGE_ROOM,
        LISP_ANSWER_NO_SITE,
        LISP_ANSWER_NOT_REGISTERED,
        LISP_ANSWER_REPLY,
        LISP_ANSWER_FORWARD,
        LISP_REPLIED_RECORDS,
        LISP_REPLIED_NEGATIVE,
        LISP_REPLIED_FORWARD,
        LISP_REPLIED_SILENT
    ];
    layouts.into_iter().chain(values).collect()
}

#[test]
fn the_header_agrees() {
    header::agrees("layout.c", &claims());
}

/// The layouts that x86-64 and other machines of 64 bits give the structs of the header.
#[test]
#[cfg(target_pointer_width = "64")]
fn sizes_and_alignments() {
    let found = [
        (size_of::<lisp_address>(), align_of::<lisp_address>()),
        (size_of::<lisp_locator>(), align_of::<lisp_locator>()),
        (size_of::<lisp_record>(), align_of::<lisp_record>()),
        (size_of::<lisp_message>(), align_of::<lisp_message>()),
        (size_of::<lisp_prefix>(), align_of::<lisp_prefix>()),
        (size_of::<lisp_request>(), align_of::<lisp_request>()),
        (size_of::<lisp_reply>(), align_of::<lisp_reply>()),
        (size_of::<lisp_encapsulated>(), align_of::<lisp_encapsulated>()),
        (size_of::<lisp_server>(), align_of::<lisp_server>()),
        (size_of::<lisp_pair>(), align_of::<lisp_pair>()),
        (size_of::<lisp_nonce>(), align_of::<lisp_nonce>()),
        (size_of::<lisp_received>(), align_of::<lisp_received>()),
        (size_of::<lisp_row>(), align_of::<lisp_row>()),
        (size_of::<lisp_answer>(), align_of::<lisp_answer>()),
        (size_of::<lisp_router_id>(), align_of::<lisp_router_id>()),
        (size_of::<lisp_notice>(), align_of::<lisp_notice>()),
        (size_of::<lisp_router>(), align_of::<lisp_router>()),
        (size_of::<lisp_due>(), align_of::<lisp_due>()),
        (size_of::<lisp_sent>(), align_of::<lisp_sent>()),
        (size_of::<lisp_seen>(), align_of::<lisp_seen>()),
    ];
    let messages = [(18, 2), (40, 8), (48, 8), (64, 8)];
    let requests = [(20, 2), (64, 8), (24, 8), (56, 8)];
    let servers = [(8, 8), (32, 8), (16, 8), (48, 8), (120, 8), (72, 8), (32, 8), (40, 8)];
    let routers = [(8, 8), (24, 8), (40, 8), (40, 8)];
    assert_eq!(found[..4], messages);
    assert_eq!(found[4..8], requests);
    assert_eq!(found[8..16], servers);
    assert_eq!(found[16..], routers);
    assert_eq!(offset_of!(lisp_received, reply_length), 40);
    assert_eq!(offset_of!(lisp_locator, address), 8);
    assert_eq!(offset_of!(lisp_record, eid), 10);
    assert_eq!(offset_of!(lisp_message, records_at), 48);
}
