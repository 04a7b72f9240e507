/* Calls of the system that fail when a test asks for it, and a log of them. */
#ifndef FILE_FAULTS_H
#define FILE_FAULTS_H

/* file_faults.c stands between elephant_file.c and the C library, by the linker's --wrap.
 *
 * FILE_FAULT="FIRST COUNT KIND": the calls from FIRST on, so many, do otherwise. KIND is the number of the error by which they fail. 0: a
 * write or a read takes half of its bytes, and each other call is made. 1000: the program is killed before the call, and 1001 within it, if
 * it is a write. 1002: the first does as with 0, and the others fail by EIO. EINTR is only for calls that may wait.
 * FILE_LOG=PATH: each call that changes something is written there, with its bytes, and what note_in_log says. */

void note_in_log(const char *what, unsigned long number);

/* How many calls were made. */
unsigned long faults_counted(void);

#endif
