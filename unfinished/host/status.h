/* The host's own exit statuses. A refusal or an ending has its number as the status; those lie below 64. */
#ifndef HOST_STATUS_H
#define HOST_STATUS_H

enum {
    STATUS_DONE = 0,
    STATUS_USAGE = 64,  /* wrong command, missing or wrong argument */
    STATUS_TABLE = 65,  /* a file is no table, or longer than what may be lent */
    STATUS_READ = 66,   /* a file cannot be read */
    STATUS_LIBRARY = 69, /* the library that was linked has other sizes than the header */
    STATUS_PARTED = 70, /* demo: plain and watched run came out differently, or the observation memory is no mirror */
    STATUS_ENTRY = 71,  /* verify: an entry is not what the rules give */
    STATUS_WRITE = 73   /* a file or the standard output cannot be written */
};

#endif
