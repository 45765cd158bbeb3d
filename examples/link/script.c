/* The script program over the proved library, from C: standard input in pieces of 1,000 bytes.
   cc -Icrates/exports examples/link/script.c crates/exports/out/libexports.a -o target/script-c */
#include "rendezvous.h"
#include <stdio.h>
#include <string.h>

static uint8_t session[RENDEZVOUS_SESSION_BYTES], after[RENDEZVOUS_SESSION_BYTES], piece[1000], out[1000 * RENDEZVOUS_LINE_BYTES];

int main(void) {
    size_t length, taken, filled;
    rendezvous_script_start(session, sizeof session);
    while ((length = fread(piece, 1, sizeof piece, stdin)) > 0) {
        /* There is room for what a piece of this length prints, so all of it is taken. */
        rendezvous_script_feed(session, sizeof session, piece, length, after, sizeof after, out, sizeof out, &taken, &filled);
        memcpy(session, after, sizeof session);
        if (taken != length || fwrite(out, 1, filled, stdout) != filled) return 1;
    }
    filled = rendezvous_script_finish(session, sizeof session, out, sizeof out);
    return ferror(stdin) || fwrite(out, 1, filled, stdout) != filled || fflush(stdout) != 0;
}
