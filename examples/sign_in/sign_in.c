#include "sign_in.h"

#include "names.h"

/* The names as they go on the wire, with that of the server that is wanted; user16 is the user's in UTF-16LE. */
struct names {
    struct dialtable_bytes domain, user, workstation, target, user16;
    uint8_t rooms[5][NAME_ROOM];
};

static const uint8_t version[8] = {6, 1, 0xB1, 0x1D, 0, 0, 0, 15}, zeros[16] = {0};

static int encode_one(const char *text, int unicode, uint8_t room[NAME_ROOM], struct dialtable_bytes *name)
{
    long len = name_encode(text, unicode, room, NAME_ROOM);

    *name = dialtable_part(room, len < 0 ? 0 : (dialtable_len)len);
    return len >= 0;
}

static int encode(const struct settings *box, int unicode, struct names *own)
{
    return encode_one(box->domain, unicode, own->rooms[0], &own->domain) &&
           encode_one(box->user, unicode, own->rooms[1], &own->user) &&
           encode_one(box->workstation, unicode, own->rooms[2], &own->workstation) &&
           encode_one(box->target, 1, own->rooms[3], &own->target) &&
           encode_one(box->user, 1, own->rooms[4], &own->user16);
}

/* The domain that the response is worked out over is the one that is sent, in UTF-16LE. Bytes, which are ASCII here,
 * are widened from the last on. */
static uint64_t domain_of_response(const uint8_t *challenge, dialtable_len challenge_len, const struct names *own,
                                   int unicode, uint8_t domain[2 * NAME_ROOM])
{
    uint64_t len = dialtable_domain_to_send(own->domain.bytes, own->domain.length, challenge, challenge_len, domain,
                                            NAME_ROOM);
    uint64_t i;

    if (DIALTABLE_IS_REFUSED(len) || unicode) return len;
    for (i = len; i-- > 0;) {
        domain[2 * i] = domain[i];
        domain[2 * i + 1] = 0;
    }
    return 2 * len;
}

static uint64_t work_out(struct radio *radio, const uint8_t *challenge, dialtable_len challenge_len, uint64_t time,
                         const uint8_t *pairs, dialtable_len pairs_len, const struct names *own)
{
    uint64_t answer;
    uint8_t server_challenge[8], domain[2 * NAME_ROOM];
    struct dialtable_challenge read;
    struct radio_task task;

    answer = dialtable_read_challenge_struct(challenge, challenge_len, &read, server_challenge, sizeof server_challenge);
    if (DIALTABLE_IS_REFUSED(answer)) return answer;
    answer = domain_of_response(challenge, challenge_len, own, (read.flags & DIALTABLE_FLAG_UNICODE) != 0, domain);
    if (DIALTABLE_IS_REFUSED(answer)) return answer;
    task.user = own->user16.bytes, task.user_len = (size_t)own->user16.length;
    task.domain = domain, task.domain_len = (size_t)answer;
    task.pairs = pairs, task.pairs_len = (size_t)pairs_len;
    task.server_challenge = server_challenge;
    task.time = time;
    task.key_exchange =
        (read.flags & DIALTABLE_FLAG_KEY_EXCH) != 0 && (read.flags & (DIALTABLE_FLAG_SIGN | DIALTABLE_FLAG_SEAL)) != 0;
    return radio_respond(radio, &task) ? 0 : NO_RESPONSE;
}

/* From the first comment with two strokes on this is the recipe of dialtable.h, line by line. */
uint64_t sign_in(const struct settings *box, struct radio *radio)
{
    /* More than a box has of stack; it signs in once at a time. */
    static uint8_t first[64], challenge[CHALLENGE_ROOM], pairs[PAIRS_ROOM], out[ANSWER_ROOM], line[LINE_ROOM];
    static struct names own;
    struct dialtable_decision decision;
    struct dialtable_parts parts;
    struct dialtable_response done;
    uint64_t answer, worked_out, first_len, challenge_len, pairs_len;

    // Ask. exchange sends a message, and where there is room receives the server's.
    first_len = dialtable_write_negotiate(first, sizeof first, box->wanted, version, NULL, 0, NULL, 0);
    if (DIALTABLE_IS_REFUSED(first_len)) return first_len;
    log_it(line, dialtable_negotiate_line(first, first_len, line, sizeof line));
    challenge_len = exchange(first, first_len, challenge, sizeof challenge);
    log_it(line, dialtable_challenge_line(challenge, challenge_len, line, sizeof line));
    // Is the challenge good enough? Its flags say how the names go out: UTF-16LE or bytes.
    answer = dialtable_decide_struct(box->settings, challenge, challenge_len, box->clock, &decision);
    if (DIALTABLE_IS_REFUSED(answer)) return answer;
    if (!encode(box, (decision.flags & DIALTABLE_FLAG_UNICODE) != 0, &own)) return NAME_UNSENT;
    // The radio module works out responses and keys, over the Time and the pair list that goes back.
    pairs_len = dialtable_write_response_pairs(pairs, sizeof pairs, challenge, challenge_len, own.target.bytes,
                                               own.target.length, 0, zeros);
    if (DIALTABLE_IS_REFUSED(pairs_len)) return pairs_len;
    worked_out = work_out(radio, challenge, challenge_len, decision.time, pairs, pairs_len, &own);
    if (worked_out != 0) return worked_out;
    // Write the answer. A MIC goes in afterwards: it is worked out over all three messages.
    parts.domain = own.domain, parts.user = own.user, parts.workstation = own.workstation;
    parts.lm = dialtable_part(radio->lm, sizeof radio->lm), parts.nt = dialtable_part(radio->nt, radio->nt_len);
    parts.key = dialtable_part(radio->key, sizeof radio->key), parts.version = version, parts.mic = zeros;
    answer = dialtable_respond_struct(out, sizeof out, box->settings, challenge, challenge_len, box->clock, &parts, &done);
    if (DIALTABLE_IS_REFUSED(answer)) return answer;
    if (done.mic_due)
        worked_out = dialtable_write_mic(radio->session_key, sizeof radio->session_key, first, first_len, challenge,
                                         challenge_len, out, answer);
    if (DIALTABLE_IS_REFUSED(worked_out)) return worked_out;
    // Send it.
    log_it(line, dialtable_authenticate_line(out, answer, line, sizeof line));
    return exchange(out, answer, NULL, 0);
}
