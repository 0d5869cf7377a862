#ifndef STDIO_H
#define STDIO_H
#include <stddef.h>
typedef struct _IO_FILE FILE;
extern FILE *stdout, *stderr;
FILE *fopen(const char *path, const char *mode);
int fclose(FILE *file);
size_t fread(void *to, size_t size, size_t count, FILE *from);
int ferror(FILE *file);
int fflush(FILE *file);
int fputs(const char *text, FILE *to);
int fprintf(FILE *to, const char *format, ...);
int printf(const char *format, ...);
int snprintf(char *to, size_t room, const char *format, ...);
void perror(const char *text);
#endif
