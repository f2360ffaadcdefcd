/* Loaded before the program's own libraries, this makes syncs do nothing. */
int fsync(int file) {
    (void)file;
    return 0;
}

int fdatasync(int file) {
    (void)file;
    return 0;
}
