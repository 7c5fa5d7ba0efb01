/* What a decoder, a host and a follower make of bytes. A file that includes this defines IT and
 * MODEL, the calls that report events, HEAR and HEAR_MANY (which a follower hasn't), and
 * MODEL_HEAR, that of the model. UNREAD is the call that counts unread bytes, and MODEL_UNREAD
 * their number in the model. */

static dgt_event right;
static uint8_t right_body[DGT_MAX_BODY];

static size_t hear(const uint8_t *bytes, size_t n) {
    size_t room = input_room(DGT_MAX_BODY);
    uint8_t *body = guarded(BODY, room);
    dgt_event *event = guarded(EVENTS, sizeof *event);
    size_t used = MODEL_HEAR(MODEL, bytes, n, &right, right_body);
    CHECK(HEAR(IT, bytes, n, event, body, room) == used);
    CHECK_SAME(event, &right);
    check_written(body, room, right_body, right.body_len);
    CHECK(UNREAD(IT) == MODEL_UNREAD);
    return used;
}

#ifdef HEAR_MANY
static size_t hear_many(const uint8_t *bytes, size_t n) {
    size_t room = input_room(DGT_MAX_BODY), capacity = input_room(20), count = 0, used = 0;
    uint8_t *body = guarded(BODY, room);
    dgt_event *events = guarded(EVENTS, capacity * sizeof *events);
    dgt_told told = HEAR_MANY(IT, bytes, n, events, capacity, body, room);
    for (right.body_len = 0; used < n && count < capacity && right.body_len == 0;) {
        used += MODEL_HEAR(MODEL, bytes + used, n - used, &right, right_body);
        if (right.kind == DGT_EVENT_NONE) break;
        right.place = used; /* relative to the whole chunk */
        CHECK_SAME(&events[count++], &right);
    }
    CHECK(told.used == used && told.count == count);
    check_kept(events, count * sizeof *events, capacity * sizeof *events);
    check_written(body, room, right_body, right.body_len);
    CHECK(UNREAD(IT) == MODEL_UNREAD);
    return used;
}
#endif
