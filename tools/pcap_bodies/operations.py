"""The operations of NFS version 4.1 (RFC 8881), 4.2 (RFC 7862) and the extended attributes (RFC 8276):
name, shape of the arguments, shape of the results behind a status of 0. Those of version 4.0 only are left out. Then
those of callbacks, likewise."""

from .xdr import array, linked_list, opaque, optional, union

NOTHING = ()
STATEID = 16
TIME = 12
CHANGE_INFO = 20
SESSION = 16
DEVICE = 16
VERIFIER = 8
RANGE = 16

BITMAP = array(4)
ATTRIBUTES = (BITMAP, opaque)
OWNER = (8, opaque)
ACE = (4, 4, 4, opaque)
IMPLEMENTATION = array((opaque, opaque, TIME))
CHANNEL = (24, array(4))
CALLBACK_SECURITY = array(union({0: NOTHING, 1: (4, opaque, 4, 4, array(4)), 6: (4, opaque, opaque)}))
LAYOUT_UPDATE = (4, opaque)
NET_LOCATION = union({1: opaque, 2: opaque, 3: (opaque, opaque)})
WRITE_RESPONSE = (array(STATEID), 8, 4, VERIFIER)
SECURITY_FLAVORS = array(union({6: (opaque, 4, 4)}, NOTHING))

PROTECTED = (BITMAP, BITMAP)
PROTECTION_ASKED = union({0: NOTHING, 1: PROTECTED, 2: (PROTECTED, array(opaque), array(opaque), 4, 4)})
PROTECTION_GIVEN = union({0: NOTHING, 1: PROTECTED, 2: (PROTECTED, 16, array(opaque))})

LOCKER = union({0: (STATEID, 4), 1: (4, STATEID, 4, OWNER)})
CREATED_TYPE = union({3: 8, 4: 8, 5: opaque}, NOTHING)
CREATE_HOW = union({0: ATTRIBUTES, 1: ATTRIBUTES, 2: VERIFIER, 3: (VERIFIER, ATTRIBUTES)})
CLAIM = union({0: opaque, 1: 4, 2: (STATEID, opaque), 3: opaque, 4: NOTHING, 5: STATEID, 6: NOTHING})
READ_DELEGATION = (STATEID, 4, ACE)
WRITE_DELEGATION = (STATEID, 4, union({1: 8, 2: 8}), ACE)
DELEGATION = union(
    {
        0: NOTHING,
        1: READ_DELEGATION,
        2: WRITE_DELEGATION,
        3: union({1: 4, 2: 4}, NOTHING),
        4: READ_DELEGATION,  # with delegated attributes (RFC 9754)
        5: WRITE_DELEGATION,
    }
)
DIRECTORY_DELEGATION = union({0: (VERIFIER, STATEID, BITMAP, BITMAP, BITMAP), 1: 4})

OPERATIONS = {
    3: ("ACCESS", 4, 8),
    4: ("CLOSE", (4, STATEID), STATEID),
    5: ("COMMIT", 12, VERIFIER),
    6: ("CREATE", (CREATED_TYPE, opaque, ATTRIBUTES), (CHANGE_INFO, BITMAP)),
    7: ("DELEGPURGE", 8, NOTHING),
    8: ("DELEGRETURN", STATEID, NOTHING),
    9: ("GETATTR", BITMAP, ATTRIBUTES),
    10: ("GETFH", NOTHING, opaque),
    11: ("LINK", opaque, CHANGE_INFO),
    12: ("LOCK", (4, 4, RANGE, LOCKER), STATEID),
    13: ("LOCKT", (4, RANGE, OWNER), NOTHING),
    14: ("LOCKU", (4, 4, STATEID, RANGE), STATEID),
    15: ("LOOKUP", opaque, NOTHING),
    16: ("LOOKUPP", NOTHING, NOTHING),
    17: ("NVERIFY", ATTRIBUTES, NOTHING),
    18: (
        "OPEN",
        (12, OWNER, union({1: CREATE_HOW}, NOTHING), CLAIM),
        (STATEID, CHANGE_INFO, 4, BITMAP, DELEGATION),
    ),
    19: ("OPENATTR", 4, NOTHING),
    21: ("OPEN_DOWNGRADE", (STATEID, 12), STATEID),
    22: ("PUTFH", opaque, NOTHING),
    23: ("PUTPUBFH", NOTHING, NOTHING),
    24: ("PUTROOTFH", NOTHING, NOTHING),
    25: ("READ", (STATEID, 12), (4, opaque)),
    26: ("READDIR", (24, BITMAP), (VERIFIER, linked_list((8, opaque, ATTRIBUTES)), 4)),
    27: ("READLINK", NOTHING, opaque),
    28: ("REMOVE", opaque, CHANGE_INFO),
    29: ("RENAME", (opaque, opaque), (CHANGE_INFO, CHANGE_INFO)),
    31: ("RESTOREFH", NOTHING, NOTHING),
    32: ("SAVEFH", NOTHING, NOTHING),
    33: ("SECINFO", opaque, SECURITY_FLAVORS),
    34: ("SETATTR", (STATEID, ATTRIBUTES), BITMAP),
    37: ("VERIFY", ATTRIBUTES, NOTHING),
    38: ("WRITE", (STATEID, 12, opaque), (8, VERIFIER)),
    40: ("BACKCHANNEL_CTL", (4, CALLBACK_SECURITY), NOTHING),
    41: ("BIND_CONN_TO_SESSION", (SESSION, 8), (SESSION, 8)),
    42: (
        "EXCHANGE_ID",
        (VERIFIER, opaque, 4, PROTECTION_ASKED, IMPLEMENTATION),
        (16, PROTECTION_GIVEN, 8, opaque, opaque, IMPLEMENTATION),
    ),
    43: ("CREATE_SESSION", (16, CHANNEL, CHANNEL, 4, CALLBACK_SECURITY), (SESSION, 8, CHANNEL, CHANNEL)),
    44: ("DESTROY_SESSION", SESSION, NOTHING),
    45: ("FREE_STATEID", STATEID, NOTHING),
    46: ("GET_DIR_DELEGATION", (4, BITMAP, TIME, TIME, BITMAP, BITMAP), DIRECTORY_DELEGATION),
    47: ("GETDEVICEINFO", (DEVICE, 8, BITMAP), (4, opaque, BITMAP)),
    48: ("GETDEVICELIST", (16, VERIFIER), (8, VERIFIER, array(DEVICE), 4)),
    49: (
        "LAYOUTCOMMIT",
        (RANGE, 4, STATEID, optional(8), optional(TIME), LAYOUT_UPDATE),
        optional(8),
    ),
    50: ("LAYOUTGET", (12, 24, STATEID, 4), (4, STATEID, array((RANGE, 8, opaque)))),
    51: (
        "LAYOUTRETURN",
        (12, union({1: (RANGE, STATEID, opaque), 2: NOTHING, 3: NOTHING})),
        optional(STATEID),
    ),
    52: ("SECINFO_NO_NAME", 4, SECURITY_FLAVORS),
    53: ("SEQUENCE", (SESSION, 16), (SESSION, 20)),
    54: ("SET_SSV", (opaque, opaque), opaque),
    55: ("TEST_STATEID", array(STATEID), array(4)),
    56: ("WANT_DELEGATION", (4, union({1: 4, 4: NOTHING, 6: NOTHING})), DELEGATION),
    57: ("DESTROY_CLIENTID", 8, NOTHING),
    58: ("RECLAIM_COMPLETE", 4, NOTHING),
    59: ("ALLOCATE", (STATEID, RANGE), NOTHING),
    60: ("COPY", (STATEID, STATEID, 32, array(NET_LOCATION)), (WRITE_RESPONSE, 8)),
    61: ("COPY_NOTIFY", (STATEID, NET_LOCATION), (TIME, STATEID, array(NET_LOCATION))),
    62: ("DEALLOCATE", (STATEID, RANGE), NOTHING),
    63: ("IO_ADVISE", (STATEID, RANGE, BITMAP), BITMAP),
    64: ("LAYOUTERROR", (RANGE, STATEID, array((DEVICE, 8))), NOTHING),
    65: ("LAYOUTSTATS", (RANGE, STATEID, 32, DEVICE, LAYOUT_UPDATE), NOTHING),
    66: ("OFFLOAD_CANCEL", STATEID, NOTHING),
    67: ("OFFLOAD_STATUS", STATEID, (8, array(4))),
    68: ("READ_PLUS", (STATEID, 12), (4, array(union({0: (8, opaque), 1: RANGE})))),
    69: ("SEEK", (STATEID, 12), 12),
    70: ("WRITE_SAME", (STATEID, 4, 44, opaque), WRITE_RESPONSE),
    71: ("CLONE", (STATEID, STATEID, 24), NOTHING),
    72: ("GETXATTR", opaque, opaque),
    73: ("SETXATTR", (4, opaque, opaque), CHANGE_INFO),
    74: ("LISTXATTRS", 12, (8, array(opaque), 4)),
    75: ("REMOVEXATTR", opaque, CHANGE_INFO),
}

CALLBACKS = {
    3: ("CB_GETATTR", (opaque, BITMAP), ATTRIBUTES),
    4: ("CB_RECALL", (STATEID, 4, opaque), NOTHING),
    5: ("CB_LAYOUTRECALL", (12, union({1: (opaque, RANGE, STATEID), 2: 16, 3: NOTHING})), NOTHING),
    6: ("CB_NOTIFY", (STATEID, opaque, array((BITMAP, opaque))), NOTHING),
    7: ("CB_PUSH_DELEG", (opaque, DELEGATION), NOTHING),
    8: ("CB_RECALL_ANY", (4, BITMAP), NOTHING),
    9: ("CB_RECALLABLE_OBJ_AVAIL", (4, BITMAP), NOTHING),
    10: ("CB_RECALL_SLOT", 4, NOTHING),
    11: ("CB_SEQUENCE", (SESSION, 16, array((SESSION, array(8)))), (SESSION, 16)),
    12: ("CB_WANTS_CANCELLED", 8, NOTHING),
    13: ("CB_NOTIFY_LOCK", (opaque, OWNER), NOTHING),
    14: ("CB_NOTIFY_DEVICEID", array((BITMAP, opaque)), NOTHING),
    15: ("CB_OFFLOAD", (opaque, STATEID, union({0: WRITE_RESPONSE}, 8)), NOTHING),
}
