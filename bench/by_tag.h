/* For a library that makes the tag both ways: sealing keeps it, and opening compares it. Included after the file's own `run`. */
static void seal(int mode, struct message *m)
{
    run(mode, m, 1, m->tag);
}

static int open(int mode, struct message *m)
{
    uint8_t tag[16];
    run(mode, m, 0, tag);
    return memcmp(tag, m->tag, 16) == 0;
}
