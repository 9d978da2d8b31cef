/* psi_others.c: a receiver over libdvbpsi (VideoLAN, Debian libdvbpsi-dev 1.3.3) of a stream's own tables and those of others. Sections, CRC,
 * tables and descriptors are decoded by libdvbpsi; this file prints a line, with tabs, for each stream of a NIT, each service of an SDT and
 * each event.
 *   cc -w -o psi_others psi_others.c -ldvbpsi ;   ./psi_others FILE.ts
 * The file is played twice with the continuity carried on: libdvbpsi shows an EIT sub-table only after it has heard a section of it again
 * (eit.c, dvbpsi_IsCompleteEIT looks before the section is added). libdvbpsi knows a sub-table by table_id and table_id_extension, so two
 * streams of one number on two networks are one to it.
 */
#include <stdbool.h>
#include <stdint.h>
#include <stdio.h>
#include <string.h>
#include <time.h>
#include <dvbpsi/dvbpsi.h>
#include <dvbpsi/demux.h>
#include <dvbpsi/descriptor.h>
#include <dvbpsi/nit.h>
#include <dvbpsi/sdt.h>
#include <dvbpsi/eit.h>
#include <dvbpsi/dr.h>

static unsigned long messages;

static void text(const uint8_t *bytes, int count) {
    int from = count && bytes[0] == 0x15;
    fwrite(bytes + from, 1, count - from, stdout);
}

static void put_cable(dvbpsi_descriptor_t *d) {
    for (; d; d = d->p_next) {
        dvbpsi_cable_deliv_sys_dr_t *c = d->i_tag == 0x44 ? dvbpsi_DecodeCableDelivSysDr(d) : NULL;
        if (c) { printf("%x\t%d\t%x\t%d\t%d", c->i_frequency, c->i_modulation, c->i_symbol_rate, c->i_fec_outer, c->i_fec_inner); return; }
    }
    printf("\t\t\t\t");
}

static void put_list(dvbpsi_descriptor_t *d) {
    for (; d; d = d->p_next) {
        dvbpsi_service_list_dr_t *l = d->i_tag == 0x41 ? dvbpsi_DecodeServiceListDr(d) : NULL;
        if (!l) continue;
        for (int i = 0; i < l->i_service_count; i++)
            printf("%s%d:%d", i ? " " : "", l->i_service[i].i_service_id, l->i_service[i].i_service_type);
        return;
    }
}

/* the descriptors that have none of these tags, in digits; a rating of several countries is one of them */
static void put_further(dvbpsi_descriptor_t *d, const char *made) {
    for (const char *gap = ""; d; d = d->p_next) {
        if (strchr(made, d->i_tag) && !(d->i_tag == 0x55 && d->i_length != 4)) continue;
        printf("%s%02x%02x", gap, d->i_tag, d->i_length);
        for (int i = 0; i < d->i_length; i++) printf("%02x", d->p_data[i]);
        gap = " ";
    }
}

static void on_nit(void *data, dvbpsi_nit_t *t) {
    for (dvbpsi_nit_ts_t *s = t->p_first_ts; s; s = s->p_next) {
        printf("stream\t%d\t%d\t", s->i_ts_id, s->i_orig_network_id);
        put_cable(s->p_first_descriptor);
        printf("\t");
        put_list(s->p_first_descriptor);
        printf("\t");
        put_further(s->p_first_descriptor, "\x41\x44");
        printf("\n");
    }
    dvbpsi_nit_delete(t);
}

static void on_sdt(void *data, dvbpsi_sdt_t *t) {
    for (dvbpsi_sdt_service_t *s = t->p_first_service; s; s = s->p_next)
        for (dvbpsi_descriptor_t *d = s->p_first_descriptor; d; d = d->p_next) {
            dvbpsi_service_dr_t *n = d->i_tag == 0x48 ? dvbpsi_DecodeServiceDr(d) : NULL;
            if (!n) continue;
            printf("service\t%d\t%d\t%d\t%d\t", t->i_extension, t->i_network_id, s->i_service_id, n->i_service_type);
            text(n->i_service_provider_name, n->i_service_provider_name_length);
            printf("\t");
            text(n->i_service_name, n->i_service_name_length);
            printf("\t");
            put_further(s->p_first_descriptor, "\x48");
            printf("\n");
        }
    dvbpsi_sdt_delete(t);
}

static void put_moment(uint64_t bcd) {
    time_t at = ((time_t)(bcd >> 24) - 40587) * 86400;
    struct tm day;
    gmtime_r(&at, &day);
    printf("%04d-%02d-%02dT%02x:%02x:%02xZ", day.tm_year + 1900, day.tm_mon + 1, day.tm_mday, (int)(bcd >> 16 & 255), (int)(bcd >> 8 & 255),
           (int)(bcd & 255));
}

static void put_texts(dvbpsi_descriptor_t *first) {
    for (dvbpsi_descriptor_t *d = first; d; d = d->p_next) {
        dvbpsi_short_event_dr_t *s = d->i_tag == 0x4D ? dvbpsi_DecodeShortEventDr(d) : NULL;
        if (!s) continue;
        printf("%.3s\t", (char *)s->i_iso_639_code);
        text(s->i_event_name, s->i_event_name_length);
        printf("\t");
        text(s->i_text, s->i_text_length);
    }
    printf("\t");
    for (dvbpsi_descriptor_t *d = first; d; d = d->p_next) {
        dvbpsi_extended_event_dr_t *x = d->i_tag == 0x4E ? dvbpsi_DecodeExtendedEventDr(d) : NULL;
        if (x) text(x->i_text, x->i_text_length);
    }
}

static void put_rating(dvbpsi_descriptor_t *d) {
    for (; d; d = d->p_next) {
        dvbpsi_parental_rating_dr_t *r = d->i_tag == 0x55 ? dvbpsi_DecodeParentalRatingDr(d) : NULL;
        if (!r || !r->i_ratings_number) continue;
        uint32_t c = r->p_parental_rating[0].i_country_code;
        printf("%c%c%c\t%d", c >> 16 & 255, c >> 8 & 255, c & 255, r->p_parental_rating[0].i_rating);
        return;
    }
    printf("\t");
}

static void put_genres(dvbpsi_descriptor_t *d) {
    for (; d; d = d->p_next) {
        dvbpsi_content_dr_t *g = d->i_tag == 0x54 ? dvbpsi_DecodeContentDr(d) : NULL;
        for (int i = 0; g && i < g->i_contents_number; i++)
            printf("%s%d.%d.%d", i ? " " : "", g->p_content[i].i_type >> 4, g->p_content[i].i_type & 15, g->p_content[i].i_user_byte);
    }
}

/* an event of present or following: the first that starts at the moment or before is present. Which one it is stands in its running_status */
static const char *word_of(int table, dvbpsi_eit_event_t *e) {
    if (table != 0x4E && table != 0x4F) return "event";
    return e->i_running_status == 4 ? "now" : "next";
}

static void on_eit(void *data, dvbpsi_eit_t *t) {
    int table = (int)(intptr_t)data;
    for (dvbpsi_eit_event_t *e = t->p_first_event; e; e = e->p_next) {
        printf("%s\t%d\t%d\t%d\t%d\t", word_of(table, e), t->i_ts_id, t->i_network_id, t->i_extension, e->i_event_id);
        put_moment(e->i_start_time);
        printf("\t%02x:%02x:%02x\t", e->i_duration >> 16 & 255, e->i_duration >> 8 & 255, e->i_duration & 255);
        put_texts(e->p_first_descriptor);
        printf("\t");
        put_rating(e->p_first_descriptor);
        printf("\t");
        put_genres(e->p_first_descriptor);
        printf("\t");
        put_further(e->p_first_descriptor, "\x4D\x4E\x54\x55");
        printf("\n");
    }
    dvbpsi_eit_delete(t);
}

static void message(dvbpsi_t *h, const dvbpsi_msg_level_t level, const char *words) {
    if (messages++ < 3) fprintf(stderr, "%s\n", words);
}

static void on_new(dvbpsi_t *h, uint8_t table, uint16_t extension, void *data) {
    void *id = (void *)(intptr_t)table;
    if (table == 0x40) dvbpsi_nit_attach(h, table, extension, on_nit, id);
    else if (table == 0x42 || table == 0x46) dvbpsi_sdt_attach(h, table, extension, on_sdt, id);
    else if (table >= 0x4E && table <= 0x6F) dvbpsi_eit_attach(h, table, extension, on_eit, id);
}

int main(int argc, char **argv) {
    static dvbpsi_t *heard[8192];
    static int first[8192], last[8192], seen[8192];
    FILE *file = argc > 1 ? fopen(argv[1], "rb") : NULL;
    if (!file) return 1;
    for (int pid = 0x10; pid <= 0x12; pid++) {
        heard[pid] = dvbpsi_new(message, DVBPSI_MSG_ERROR);
        dvbpsi_AttachDemux(heard[pid], on_new, NULL);
    }
    uint8_t p[188];
    for (int pass = 0; pass < 2; pass++, rewind(file))
        while (fread(p, 188, 1, file) == 1) {
            int pid = (p[1] & 31) << 8 | p[2];
            if (!heard[pid]) continue;
            if (pass) p[3] = (p[3] & 0xF0) | ((p[3] - first[pid] + last[pid] + 1) & 15);
            else { if (!seen[pid]) { seen[pid] = 1; first[pid] = p[3] & 15; } last[pid] = p[3] & 15; }
            dvbpsi_packet_push(heard[pid], p);
        }
    fprintf(stderr, "psi_others: %lu messages\n", messages);
    return 0;
}
