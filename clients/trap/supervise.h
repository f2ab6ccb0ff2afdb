/*
 * A program under the filter, and its supervisor. Three processes:
 *
 * - The caller's own waits for the program, hands signals on to it that other processes send, and ends as it has ended. It says so if the supervisor is killed.
 * - The supervisor answers the calls. It lives as long as any process under the filter does, without the caller's terminal and streams. It is the parent of the
 *   program, and of all that it starts and leaves behind: so Yama lets it look into their memory.
 * - The program has the caller's streams, folder, environment, signals and process group.
 *
 * Only SIGKILL ends the supervisor before that. The programs that it has left get ENOSYS from their calls then.
 */
#ifndef SUPERVISE_H
#define SUPERVISE_H

/* Runs these words, and gives their status: that of the program, 128 and the signal's number, 127 or 126 if it can't be started, 1 if it can't be trapped. */
int supervise(char **words);

#endif
