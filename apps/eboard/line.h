/* Follows a board on a serial port. Times are in milliseconds. */
#ifndef LINE_H
#define LINE_H

#include "dgt.h"

typedef struct line {
    const char *name;      /* of the port */
    int port;              /* its descriptor, or -1 while the port is lost */
    long long look;        /* when to look for the lost port again */
    dgt_follower follower; /* makes the requests, and keeps the squares */
    bool hurries;          /* line_hurry was called, and all squares haven't been reported since */
    int texts;             /* how many of the texts below were received */
    char serial[8], version[16], trademark[128];
} line;

/* Called each time that one square or all were reported. */
typedef void seen(bool is_dump);

long long line_now(void);

/* Opens the port, and requests all squares and each change. False, with the reason in errno, if the
 * port can't be opened. */
bool line_open(line *line, const char *name);

/* Reads received bytes, and calls `seen` after each report of squares. */
void line_read(line *line, seen *seen);

/* Sends a request, or looks for the port, if that is due. */
void line_keep(line *line);

/* The next time to call line_keep, if nothing is read before. */
long long line_due(line *line);

/* Whether all squares are known, and aren't in doubt. Writes them, if they are known. */
bool line_is_sure(line *line, uint8_t pieces[64]);

/* Whether a report of all squares has repeated the known ones (see dgt.h). */
bool line_is_confirmed(line *line);

/* Makes line_keep request all squares at once, or as soon as the last request is answered. It does
 * so once until they arrive. */
void line_hurry(line *line);

/* Requests the serial number, the version and the trademark. */
void line_ask_texts(line *line);

void line_close(line *line);

#endif
