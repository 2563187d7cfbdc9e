"""A sample of the arguments and results of operations that captures/ has none of, field by field as RFC 8881,
RFC 7862 and RFC 8276 give them; then of callbacks."""

from .records import STATEID, WHOLE_FILE, n, nn, o

VERIFIER = b"VERIFIER"
BITMAP = n(2, 0x18, 0x30)
ATTRIBUTES = BITMAP + o(b"values of attributes")
CHANGE = n(1) + nn(5, 6)
OWNER = nn(7) + o(b"owner")
ACE = n(0, 0, 31) + o(b"EVERYONE@")
SESSION = STATEID
DEVICE = STATEID
TIME = nn(1) + n(2)
PROTECTED = BITMAP + BITMAP
NET_LOCATIONS = n(2, 1) + o(b"name") + n(3) + o(b"tcp") + o(b"10.0.0.1.8.1")
OPEN = n(18, 1, 2, 0) + OWNER
OPENED = n(18, 0) + STATEID + CHANGE + n(4) + BITMAP
LOCK = n(12, 2, 0) + WHOLE_FILE
ENTRY = n(1) + nn(3) + o(b"entry") + ATTRIBUTES
CHANNEL = n(0, 1, 2, 3, 4, 5, 1, 6)
WRITTEN = n(1) + STATEID + nn(10) + n(2) + VERIFIER
IMPLEMENTATION = n(1) + o(b"kernel.org") + o(b"Linux") + TIME
EXCHANGED = n(42, 0) + nn(1) + n(2, 3)
SERVER_OWNER = nn(0) + o(b"major") + o(b"scope") + n(0)

SAMPLES = {
    "COMMIT": (n(5) + nn(0) + n(9), n(5, 0) + VERIFIER),
    "CREATE directory": (n(6, 2) + o() + ATTRIBUTES, n(6, 0) + CHANGE + BITMAP),
    "CREATE link": (n(6, 5) + o(b"target") + o() + ATTRIBUTES, n(6, 0) + CHANGE + BITMAP),
    "CREATE device": (n(6, 3, 8, 1) + o() + ATTRIBUTES, n(6, 0) + CHANGE + BITMAP),
    "DELEGPURGE": (n(7) + nn(1), n(7, 0)),
    "LINK": (n(11) + o(), n(11, 0) + CHANGE),
    "LOCK, new owner": (LOCK + n(1, 1) + STATEID + n(2) + OWNER, n(12, 0) + STATEID),
    "LOCK, known owner": (LOCK + n(0) + STATEID + n(2), n(12, 0) + STATEID),
    "LOCKT": (n(13, 1) + WHOLE_FILE + OWNER, n(13, 0)),
    "LOCKU": (n(14, 1, 1) + STATEID + WHOLE_FILE, n(14, 0) + STATEID),
    "LOOKUPP": (n(16), n(16, 0)),
    "NVERIFY": (n(17) + ATTRIBUTES, n(17, 0)),
    "OPEN, unchecked": (OPEN + n(1, 0) + ATTRIBUTES + n(0) + o(), OPENED + n(0)),
    "OPEN, exclusive": (OPEN + n(1, 2) + VERIFIER + n(0) + o(), OPENED + n(1) + STATEID + n(0) + ACE),
    "OPEN, exclusive 4.1": (
        OPEN + n(1, 3) + VERIFIER + ATTRIBUTES + n(0) + o(),
        OPENED + n(2) + STATEID + n(0, 1) + nn(99) + ACE,
    ),
    "OPEN, reclaim": (OPEN + n(0, 1, 2), OPENED + n(2) + STATEID + n(0, 2, 9, 512) + ACE),
    "OPEN, delegated": (OPEN + n(0, 2) + STATEID + o(), OPENED + n(3, 1, 1)),
    "OPEN, delegated handle": (OPEN + n(0, 5) + STATEID, OPENED + n(3, 0)),
    "OPEN, by handle": (OPEN + n(0, 4), OPENED + n(5) + STATEID + n(0, 1) + nn(99) + ACE),
    "OPENATTR": (n(19, 1), n(19, 0)),
    "OPEN_DOWNGRADE": (n(21) + STATEID + n(1, 1, 0), n(21, 0) + STATEID),
    "PUTPUBFH": (n(23), n(23, 0)),
    "READ": (n(25) + STATEID + nn(0) + n(5), n(25, 0, 1) + o()),
    "READDIR": (n(26) + nn(0) + VERIFIER + n(1, 2) + BITMAP, n(26, 0) + VERIFIER + ENTRY + ENTRY + n(0, 1)),
    "READLINK": (n(27), n(27, 0) + o()),
    "REMOVE": (n(28) + o(), n(28, 0) + CHANGE),
    "RENAME": (n(29) + o() + o(b"b"), n(29, 0) + CHANGE + CHANGE),
    "RESTOREFH": (n(31), n(31, 0)),
    "SAVEFH": (n(32), n(32, 0)),
    "SECINFO": (n(33) + o(), n(33, 0, 2, 6) + o(b"oid") + n(0, 1, 1)),
    "VERIFY": (n(37) + ATTRIBUTES, n(37, 0)),
    "WRITE": (n(38) + STATEID + nn(0) + n(2) + o(b"sevenby"), n(38, 0, 7, 2) + VERIFIER),
    "BACKCHANNEL_CTL": (
        n(40, 9, 3, 0, 1, 5) + o(b"machine") + n(0, 0, 1, 4, 6, 1) + o() + o(),
        n(40, 0),
    ),
    "BIND_CONN_TO_SESSION": (n(41) + SESSION + n(3, 0), n(41, 0) + SESSION + n(3, 0)),
    "EXCHANGE_ID, machine": (
        n(42) + VERIFIER + o() + n(1, 1) + PROTECTED + IMPLEMENTATION,
        EXCHANGED + n(1) + PROTECTED + SERVER_OWNER,
    ),
    "EXCHANGE_ID, SSV": (
        n(42) + VERIFIER + o() + n(1, 2) + PROTECTED + n(1) + o() + n(1) + o() + n(4, 5, 0),
        EXCHANGED + n(2) + PROTECTED + n(0, 0, 32, 4, 1) + o() + SERVER_OWNER,
    ),
    "CREATE_SESSION, RDMA": (
        n(43) + nn(1) + n(1, 3) + CHANNEL + CHANNEL + n(9, 1, 0),
        n(43, 0) + SESSION + n(1, 3) + CHANNEL + CHANNEL,
    ),
    "FREE_STATEID": (n(45) + STATEID, n(45, 0)),
    "GET_DIR_DELEGATION": (
        n(46, 0) + BITMAP + TIME + TIME + BITMAP + BITMAP,
        n(46, 0, 0) + VERIFIER + STATEID + BITMAP + BITMAP + BITMAP,
    ),
    "GETDEVICELIST": (n(48, 4, 9) + nn(0) + VERIFIER, n(48, 0) + nn(0) + VERIFIER + n(2) + DEVICE + DEVICE + n(1)),
    "LAYOUTCOMMIT": (
        n(49) + WHOLE_FILE + n(0) + STATEID + n(1) + nn(5) + n(1) + TIME + n(4) + o(),
        n(49, 0, 1) + nn(6),
    ),
    "LAYOUTRETURN of all": (n(51, 0, 4, 3, 3), n(51, 0, 0)),
    "SET_SSV": (n(54) + o() + o(), n(54, 0) + o()),
    "TEST_STATEID": (n(55, 2) + STATEID + STATEID, n(55, 0, 2, 0, 10025)),
    "WANT_DELEGATION": (n(56, 1, 1, 1), n(56, 0, 0)),
    "ALLOCATE": (n(59) + STATEID + WHOLE_FILE, n(59, 0)),
    "COPY": (n(60) + STATEID * 2 + nn(0, 0, 9) + n(1, 0) + NET_LOCATIONS, n(60, 0) + WRITTEN + n(1, 0)),
    "COPY_NOTIFY": (n(61) + STATEID + n(2) + o(b"url"), n(61, 0) + TIME + STATEID + NET_LOCATIONS),
    "DEALLOCATE": (n(62) + STATEID + WHOLE_FILE, n(62, 0)),
    "IO_ADVISE": (n(63) + STATEID + WHOLE_FILE + BITMAP, n(63, 0) + BITMAP),
    "LAYOUTERROR": (n(64) + WHOLE_FILE + STATEID + n(1) + DEVICE + n(13, 38), n(64, 0)),
    "LAYOUTSTATS": (n(65) + WHOLE_FILE + STATEID + nn(1, 2, 3, 4) + DEVICE + n(4) + o(), n(65, 0)),
    "OFFLOAD_CANCEL": (n(66) + STATEID, n(66, 0)),
    "OFFLOAD_STATUS": (n(67) + STATEID, n(67, 0) + nn(5) + n(1, 0)),
    "READ_PLUS": (
        n(68) + STATEID + nn(0) + n(9),
        n(68, 0, 1, 2, 0) + nn(0) + o() + n(1) + nn(5, 6),
    ),
    "SEEK": (n(69) + STATEID + nn(0) + n(1), n(69, 0, 0) + nn(4)),
    "WRITE_SAME": (n(70) + STATEID + n(2) + nn(0, 1, 2, 3) + n(4) + nn(5) + o(), n(70, 0) + WRITTEN),
    "CLONE": (n(71) + STATEID * 2 + nn(0, 0, 9), n(71, 0)),
    "GETXATTR": (n(72) + o(), n(72, 0) + o(b"value")),
    "SETXATTR": (n(73, 0) + o() + o(b"value"), n(73, 0) + CHANGE),
    "LISTXATTRS": (n(74) + nn(0) + n(99), n(74, 0) + nn(2) + n(2) + o() + o(b"f") + n(1)),
    "REMOVEXATTR": (n(75) + o(), n(75, 0) + CHANGE),
}

RECALL = n(4, 2, 1)  # layout type, iomode, changed
CALLBACK_SAMPLES = {
    "CB_GETATTR": (n(3) + o() + BITMAP, n(3, 0) + ATTRIBUTES),
    "CB_RECALL": (n(4) + STATEID + n(1) + o(), n(4, 0)),
    "CB_NOTIFY": (n(6) + STATEID + o() + n(2) + BITMAP + o() + BITMAP + o(b"f"), n(6, 0)),
    "CB_PUSH_DELEG": (n(7) + o() + n(1) + STATEID + n(0) + ACE, n(7, 0)),
    "CB_RECALL_ANY": (n(8, 5) + BITMAP, n(8, 0)),
    "CB_RECALLABLE_OBJ_AVAIL": (n(9, 5) + BITMAP, n(9, 0)),
    "CB_RECALL_SLOT": (n(10, 5), n(10, 0)),
    "CB_SEQUENCE": (
        n(11) + SESSION + n(1, 2, 3, 0, 2) + SESSION + n(1, 5, 6) + SESSION + n(0),
        n(11, 0) + SESSION + n(1, 2, 3, 4),
    ),
    "CB_WANTS_CANCELLED": (n(12, 0, 1), n(12, 0)),
    "CB_NOTIFY_LOCK": (n(13) + o() + OWNER, n(13, 0)),
    "CB_NOTIFY_DEVICEID": (n(14, 1) + BITMAP + o(b"devices"), n(14, 0)),
    "CB_OFFLOAD": (n(15) + o() + STATEID + n(0) + WRITTEN, n(15, 0)),
    "CB_OFFLOAD, failed": (n(15) + o() + STATEID + n(5) + nn(9), n(15, 0)),
}
