/* psi_guide.c: an independent receiver over libdvbpsi (VideoLAN, Debian libdvbpsi-dev 1.3.3).
 * Sections, CRC, tables and descriptors are decoded by libdvbpsi; this file only prints lines, and
 * before each table the line '@ table_id extension version -1' (tabs).
 *   cc -O2 -o psi_guide psi_guide.c -ldvbpsi ;   ./psi_guide FILE.ts [quiet|twice]  |  ./psi_guide - < FILE.ts
 * 'twice' plays the file a second time with the continuity carried on: libdvbpsi shows an EIT sub-table only after
 * it has heard a section of it again (eit.c, dvbpsi_IsCompleteEIT looks before the section is added).
 */
#include <stdbool.h>
#include <stdint.h>
#include <stddef.h>
#include <sys/types.h>
#include <dvbpsi/dvbpsi.h>
#include <dvbpsi/descriptor.h>
#include <dvbpsi/demux.h>
#include <dvbpsi/psi.h>
#include <dvbpsi/pat.h>
#include <dvbpsi/pmt.h>
#include <dvbpsi/nit.h>
#include <dvbpsi/sdt.h>
#include <dvbpsi/eit.h>
#include <dvbpsi/tot.h>
#include <dvbpsi/dr.h>
#include <stdint.h>
#include <stdio.h>
#include <stdlib.h>
#include <string.h>
#include <time.h>
static int quiet, twice; static unsigned long nmsg; static unsigned long nev, ntab;
#define OUT(...) do { if (!quiet) printf(__VA_ARGS__); } while (0)
static void text(const uint8_t *p, int n) {
    if (quiet) return;
    if (n && p[0] == 0x15) { p++; n--; }
    else for (int i = 0; i < n; i++) if (p[i] < 0x20 || p[i] > 0x7E) { printf("hex:"); for (i = 0; i < n; i++) printf("%02x", p[i]); return; }
    fwrite(p, 1, n, stdout);
}
static void moment(uint64_t b) {
    if (quiet) return;
    time_t t = ((time_t)(b >> 24) - 40587) * 86400; struct tm g; gmtime_r(&t, &g);
    printf("%04d-%02d-%02dT%02x:%02x:%02xZ", g.tm_year + 1900, g.tm_mon + 1, g.tm_mday, (int)(b >> 16 & 255), (int)(b >> 8 & 255), (int)(b & 255));
}
static void on_pmt(void *d, dvbpsi_pmt_t *t) {
    if (!t->b_current_next) { dvbpsi_pmt_delete(t); return; }
    ntab++; OUT("@\t2\t%d\t%d\t-1\n", t->i_program_number, t->i_version); OUT("pmt\t%d\t%d\t%d\n", t->i_program_number, (int)(intptr_t)d, t->i_pcr_pid);
    for (dvbpsi_pmt_es_t *e = t->p_first_es; e; e = e->p_next) {
        OUT("component\t%d\t%d\t%d\t", t->i_program_number, e->i_type, e->i_pid);
        for (dvbpsi_descriptor_t *x = e->p_first_descriptor; x; x = x->p_next) if (x->i_tag == 0x0A) {
            dvbpsi_iso639_dr_t *l = dvbpsi_DecodeISO639Dr(x); if (l && l->i_code_count) OUT("%.3s", (char *)l->code[0].iso_639_code); break; }
        OUT("\n");
    }
    dvbpsi_pmt_delete(t);
}
static dvbpsi_t *H[8192];
static void message(dvbpsi_t *h, const dvbpsi_msg_level_t l, const char *m) { (void)h; (void)l; if (nmsg++ < 3) fprintf(stderr, "%s\n", m); }
static dvbpsi_t *fresh(void) { return dvbpsi_new(message, DVBPSI_MSG_ERROR); }
static void on_pat(void *d, dvbpsi_pat_t *t) {
    if (!t->b_current_next) { dvbpsi_pat_delete(t); return; }
    (void)d; ntab++; OUT("@\t0\t%d\t%d\t-1\n", t->i_ts_id, t->i_version); OUT("pat\t%d\n", t->i_ts_id);
    for (dvbpsi_pat_program_t *p = t->p_first_program; p; p = p->p_next) {
        if (p->i_number == 0 || H[p->i_pid]) continue;
        H[p->i_pid] = fresh(); dvbpsi_pmt_attach(H[p->i_pid], p->i_number, on_pmt, (void *)(intptr_t)p->i_pid);
    }
    dvbpsi_pat_delete(t);
}
static void on_nit(void *d, dvbpsi_nit_t *t) {
    if (!t->b_current_next) { dvbpsi_nit_delete(t); return; }
    (void)d; ntab++; OUT("@\t64\t%d\t%d\t-1\n", t->i_network_id, t->i_version); OUT("network\t%d\t", t->i_network_id);
    for (dvbpsi_descriptor_t *x = t->p_first_descriptor; x; x = x->p_next) if (x->i_tag == 0x40) {
        dvbpsi_network_name_dr_t *n = dvbpsi_DecodeNetworkNameDr(x); if (n) text(n->i_name_byte, n->i_name_length); break; }
    OUT("\n");
    for (dvbpsi_nit_ts_t *s = t->p_first_ts; s; s = s->p_next) {
        OUT("stream\t%d\t%d\n", s->i_ts_id, s->i_orig_network_id);
        for (dvbpsi_descriptor_t *x = s->p_first_descriptor; x; x = x->p_next) if (x->i_tag == 0x44) {
            dvbpsi_cable_deliv_sys_dr_t *c = dvbpsi_DecodeCableDelivSysDr(x);
            if (c) OUT("cable\t%d\t%x\t%d\t%x\t%d\t%d\n", s->i_ts_id, c->i_frequency, c->i_modulation, c->i_symbol_rate, c->i_fec_outer, c->i_fec_inner); break; }
    }
    dvbpsi_nit_delete(t);
}
static void on_sdt(void *d, dvbpsi_sdt_t *t) {
    if (!t->b_current_next) { dvbpsi_sdt_delete(t); return; }
    (void)d; ntab++; OUT("@\t66\t%d\t%d\t-1\n", t->i_extension, t->i_version); OUT("sdt\t%d\t%d\n", t->i_extension, t->i_network_id);
    for (dvbpsi_sdt_service_t *s = t->p_first_service; s; s = s->p_next) {
        OUT("service\t%d\t", s->i_service_id);
        for (dvbpsi_descriptor_t *x = s->p_first_descriptor; x; x = x->p_next) if (x->i_tag == 0x48) {
            dvbpsi_service_dr_t *n = dvbpsi_DecodeServiceDr(x); if (!n) break;
            OUT("%d\t", n->i_service_type); text(n->i_service_provider_name, n->i_service_provider_name_length);
            OUT("\t"); text(n->i_service_name, n->i_service_name_length); break; }
        OUT("\n");
    }
    dvbpsi_sdt_delete(t);
}
static void on_eit(void *d, dvbpsi_eit_t *t) {
    if (!t->b_current_next) { dvbpsi_eit_delete(t); return; }
    int tid = (int)(intptr_t)d; ntab++; OUT("@\t%d\t%d\t%d\t-1\n", tid, t->i_extension, t->i_version);
    for (dvbpsi_eit_event_t *e = t->p_first_event; e; e = e->p_next) {
        nev++;
        dvbpsi_short_event_dr_t *s = 0; dvbpsi_content_dr_t *g = 0; dvbpsi_parental_rating_dr_t *r = 0; dvbpsi_extended_event_dr_t *xs[16]; int nx = 0;
        for (dvbpsi_descriptor_t *x = e->p_first_descriptor; x; x = x->p_next) {
            if (x->i_tag == 0x4D && !s) s = dvbpsi_DecodeShortEventDr(x);
            else if (x->i_tag == 0x4E && nx < 16) { if ((xs[nx] = dvbpsi_DecodeExtendedEventDr(x))) nx++; }
            else if (x->i_tag == 0x54 && !g) g = dvbpsi_DecodeContentDr(x);
            else if (x->i_tag == 0x55 && !r) r = dvbpsi_DecodeParentalRatingDr(x);
        }
        if (quiet) continue;
        printf("%s\t%d\t%d\t", tid == 0x4E ? "pf" : "event", t->i_extension, e->i_event_id); moment(e->i_start_time);
        printf("\t%02x:%02x:%02x\t", e->i_duration >> 16 & 255, e->i_duration >> 8 & 255, e->i_duration & 255);
        if (s) { printf("%.3s\t", (char *)s->i_iso_639_code); text(s->i_event_name, s->i_event_name_length); printf("\t"); text(s->i_text, s->i_text_length); }
        else printf("und\t\t");
        printf("\t"); for (int i = 0; i < nx; i++) text(xs[i]->i_text, xs[i]->i_text_length);
        if (r && r->i_ratings_number) { uint32_t c = r->p_parental_rating[0].i_country_code; printf("\t%c%c%c\t%d\t", c >> 16 & 255, c >> 8 & 255, c & 255, r->p_parental_rating[0].i_rating); }
        else printf("\t\t\t");
        if (g) for (int i = 0; i < g->i_contents_number; i++) printf("%s%d.%d.%d", i ? " " : "", g->p_content[i].i_type >> 4, g->p_content[i].i_type & 15, g->p_content[i].i_user_byte);
        printf("\n");
    }
    dvbpsi_eit_delete(t);
}
static void on_tot(void *d, dvbpsi_tot_t *t) { ntab++; if ((intptr_t)d == 0x73) { dvbpsi_tot_delete(t); return; } OUT("@\t112\t0\t0\t-1\n"); OUT("clock\t"); moment(t->i_utc_time); OUT("\n"); dvbpsi_tot_delete(t); }
static void on_new(dvbpsi_t *h, uint8_t tid, uint16_t ext, void *d) {
    (void)d; void *p = (void *)(intptr_t)tid;
    if (tid == 0x40) dvbpsi_nit_attach(h, tid, ext, on_nit, p);
    else if (tid == 0x42) dvbpsi_sdt_attach(h, tid, ext, on_sdt, p);
    else if (tid == 0x70 || tid == 0x73) dvbpsi_tot_attach(h, tid, ext, on_tot, p);
    else if (tid == 0x4E || (tid >= 0x50 && tid <= 0x5F)) dvbpsi_eit_attach(h, tid, ext, on_eit, p);
}
int main(int c, char **v) {
    FILE *f = c > 1 && strcmp(v[1], "-") ? fopen(v[1], "rb") : stdin; quiet = c > 2 && *v[2] == 'q'; twice = c > 2 && *v[2] == 't';
    if (!f) return 1;
    H[0] = fresh(); dvbpsi_pat_attach(H[0], on_pat, 0);
    int pids[] = { 0x10, 0x11, 0x12, 0x14 };
    for (int i = 0; i < 4; i++) { H[pids[i]] = fresh(); dvbpsi_AttachDemux(H[pids[i]], on_new, 0); }
    static uint8_t b[188 * 512]; size_t n; unsigned long np = 0;
    static int first[8192], last[8192], seen[8192];
    for (int pass = 0; pass <= twice; pass++) {
        if (pass) rewind(f);
        while ((n = fread(b, 188, 512, f)) > 0)
            for (size_t i = 0; i < n; i++, np++) {
                uint8_t *p = b + 188 * i; int pid = (p[1] & 31) << 8 | p[2];
                if (p[0] != 0x47) { fprintf(stderr, "psi_guide: packet %lu has no sync byte\n", np); return 6; }
                if (!H[pid]) continue;
                if (pass) p[3] = (p[3] & 0xF0) | ((p[3] - first[pid] + last[pid] + 1) & 15);
                else if (p[3] & 0x10) { if (!seen[pid]) { seen[pid] = 1; first[pid] = p[3] & 15; } last[pid] = p[3] & 15; }
                dvbpsi_packet_push(H[pid], p);
            }
    }
    fprintf(stderr, "psi_guide: packets %lu, tables %lu, events %lu, messages %lu\n", np, ntab, nev, nmsg);
    return 0;
}
