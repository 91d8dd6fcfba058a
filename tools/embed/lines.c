/* Scripts of up to sixteen slots through one handle, by lines.
 *
 *     lines < SCRIPT    prints the reply of each step and what it offered; ends with status 3 at a line that may not come
 *     lines bad         says what no caller should, and ends with status 0 where each is told so and nothing is changed
 */
#include <refskold.h>
#include <stdio.h>
#include <string.h>

static char reply[REFSKOLD_REPLY];

static int play(refskold_host *host)
{
    static char line[8402]; /* the longest line of a script, and its newline */
    size_t told;
    int status = 0;
    while (status == 0 && fgets(line, sizeof line, stdin) != NULL) {
        status = refskold_host_step(host, line, strcspn(line, "\n"));
        if (status == 0) status = refskold_host_reply(host, reply, sizeof reply, &told);
        if (status == 0) printf("%.*s\n", (int)told, reply);
        for (uint32_t k = 0; status == 0 && refskold_host_offer(host, k, reply, sizeof reply, &told) == 0; k++)
            printf("%.*s\n", (int)told, reply);
    }
    return status == 0 ? 0 : 3;
}

static int wrong;

static void wants(const char *what, int status, int wanted)
{
    if (status == wanted) return;
    fprintf(stderr, "%s: %d, and not %d\n", what, status, wanted);
    wrong++;
}

static int step(refskold_host *host, const char *line) { return refskold_host_step(host, line, strlen(line)); }

static int bad(refskold_host *host)
{
    static const char zeros[sizeof(refskold_host)];
    refskold_host none = REFSKOLD_NONE, other = REFSKOLD_NONE;
    size_t told = 77;
    wants("a step of no host", step(&none, "0.1 force"), -ENODEV);
    wants("a reply of no host", refskold_host_reply(&none, reply, sizeof reply, &told), -ENODEV);
    wants("a reply before a step", refskold_host_reply(host, reply, sizeof reply, &told), -EINVAL);
    wants("an offer of no host", refskold_host_offer(&none, 0, reply, sizeof reply, &told), -ENODEV);
    wants("an offer before a step", refskold_host_offer(host, 0, reply, sizeof reply, &told), -EINVAL);
    wants("a length that is not written", told == 77, 1);
    wants("a second host", refskold_host_open(host), -EBUSY);
    wants("NULL", refskold_host_step(host, NULL, 3), -EINVAL);
    wants("no line", refskold_host_step(host, NULL, 0), -EINVAL);
    wants("a mount", step(host, "3 mount"), -EINVAL);
    wants("a mount", step(host, "mount 3 65536 1024"), 0);
    wants("words that are none", step(host, "3.1 fly"), -EINVAL);
    wants("a job that is not owed", step(host, "post 3.1.ckpt.1"), -EPROTO);
    wants("a room that is too short", refskold_host_reply(host, reply, 3, &told), -EINVAL);
    wants("a length that is not written", told == 77, 1);
    wants("its reply", refskold_host_reply(host, reply, sizeof reply, &told), 0);
    wants("the mount's reply still", told == 8 && memcmp(reply, "3 life 1", 8) == 0, 1);
    wants("an offer of a mount", refskold_host_offer(host, 0, reply, sizeof reply, &told), -EINVAL);
    wants("the greatest place", refskold_host_offer(host, UINT32_MAX, reply, sizeof reply, &told), -EINVAL);
    wants("the length of the reply still", told == 8, 1);
    wants("an empty slot", step(host, "4.1 force"), 0);
    wants("its reply", refskold_host_reply(host, reply, sizeof reply, &told), 0);
    wants("of an empty slot", told == 8 && memcmp(reply, "4 ENODEV", 8) == 0, 1);
    wants("the end of none", refskold_host_close(&none), 0);
    wants("another host", refskold_host_open(&other), 0);
    wants("its end", refskold_host_close(&other), 0);
    wants("a handle all zeros", memcmp(&other, zeros, sizeof zeros), 0);
    return wrong != 0;
}

int main(int argc, char **argv)
{
    refskold_host host = REFSKOLD_NONE;
    int status = refskold_host_open(&host);
    if (status == 0) status = argc > 1 && strcmp(argv[1], "bad") == 0 ? bad(&host) : play(&host);
    refskold_host_close(&host);
    return status != 0 ? (status < 0 ? 2 : status) : 0;
}
