/*
 * A program of 32 bits, without any library: it adds a key, finds it, reads it and is refused another one, by the calls of i386. It ends with the number of the
 * first step that went wrong, or with 0.
 */
enum { EXIT = 1, ADD_KEY = 286, REQUEST_KEY, KEYCTL, READ = 11, IOV = 20, SESSION = -3, ENOKEY = 126, EPERM = 1 };

static long call(long number, long a, long b, long c, long d, long e)
{
    long result;
    __asm__ volatile("int $0x80" : "=a"(result) : "a"(number), "b"(a), "c"(b), "d"(c), "S"(d), "D"(e) : "memory");
    return result;
}

static long at(const void *memory)
{
    return (long)memory;
}

static int steps(void)
{
    char payload[8] = "";
    struct {
        const void *at;
        unsigned long length;
    } parts[2] = {{"va", 2}, {"lue", 3}};
    long key = call(ADD_KEY, at("user"), at("narrow"), at("value"), 5, SESSION);
    if (key <= 0)
        return 1;
    if (call(REQUEST_KEY, at("user"), at("narrow"), 0, 0, 0) != key)
        return 2;
    if (call(KEYCTL, READ, key, at(payload), sizeof payload, 0) != 5 || payload[0] != 'v' || payload[4] != 'e')
        return 3;
    if (call(REQUEST_KEY, at("user"), at("none"), 0, 0, 0) != -ENOKEY)
        return 4;
    if (call(KEYCTL, IOV, key, at(parts), 2, 0) != -EPERM)
        return 5;
    return 0;
}

void _start(void)
{
    call(EXIT, steps(), 0, 0, 0, 0);
}
