#define _DEFAULT_SOURCE
#include "radio.h"

#include <string.h>
#include <sys/random.h>
#include <wctype.h>

#include <nettle/arcfour.h>
#include <nettle/hmac.h>
#include <nettle/md4.h>

int radio_draw(struct radio *radio)
{
    return getrandom(radio->client_challenge, 8, 0) == 8 && getrandom(radio->random_key, 16, 0) == 16;
}

static void hmac(const uint8_t key[16], const uint8_t *a, size_t a_len, const uint8_t *b, size_t b_len, uint8_t out[16])
{
    struct hmac_md5_ctx ctx;

    hmac_md5_set_key(&ctx, 16, key);
    hmac_md5_update(&ctx, a_len, a);
    hmac_md5_update(&ctx, b_len, b);
    hmac_md5_digest(&ctx, 16, out);
}

/* Upper case by the program's locale. Half a surrogate pair has none and stays. */
static void upper(const uint8_t *name, size_t len, uint8_t *out)
{
    size_t i;
    wint_t unit;

    for (i = 0; i + 1 < len; i += 2) {
        unit = towupper((wint_t)(name[i] | name[i + 1] << 8));
        out[i] = (uint8_t)unit;
        out[i + 1] = (uint8_t)(unit >> 8);
    }
}

/* NTOWFv2: from the password, and from the user name in upper case with the domain after it. */
static void password_key(const struct radio *radio, const struct radio_task *task, uint8_t out[16])
{
    struct md4_ctx ctx;
    uint8_t hash[16], user[RADIO_NAME_ROOM];

    md4_init(&ctx);
    md4_update(&ctx, radio->password_len, radio->password);
    md4_digest(&ctx, sizeof hash, hash);
    upper(task->user, task->user_len, user);
    hmac(hash, user, task->user_len, task->domain, task->domain_len, out);
}

/* NTLMv2_CLIENT_CHALLENGE (MS-NLMP 2.2.2.7), behind the room for the sixteen bytes of proof. */
static void write_temp(struct radio *radio, const struct radio_task *task)
{
    uint8_t *temp = radio->nt + 16;
    int i;

    memset(temp, 0, 28 + task->pairs_len + 4);
    temp[0] = temp[1] = 1;
    for (i = 0; i < 8; i++) temp[8 + i] = (uint8_t)(task->time >> 8 * i);
    memcpy(temp + 16, radio->client_challenge, 8);
    memcpy(temp + 28, task->pairs, task->pairs_len);
    radio->nt_len = 16 + 28 + task->pairs_len + 4;
}

int radio_respond(struct radio *radio, const struct radio_task *task)
{
    uint8_t key[16], base[16];
    struct arcfour_ctx cipher;

    if (task->user_len > RADIO_NAME_ROOM || task->pairs_len > RADIO_NT_ROOM - 48) return 0;
    password_key(radio, task, key);
    write_temp(radio, task);
    hmac(key, task->server_challenge, 8, radio->nt + 16, radio->nt_len - 16, radio->nt);
    hmac(key, task->server_challenge, 8, radio->client_challenge, 8, radio->lm);
    memcpy(radio->lm + 16, radio->client_challenge, 8);
    hmac(key, radio->nt, 16, radio->nt, 0, base);
    memcpy(radio->session_key, task->key_exchange ? radio->random_key : base, 16);
    arcfour_set_key(&cipher, 16, base);
    arcfour_crypt(&cipher, 16, radio->key, radio->session_key);
    return 1;
}
