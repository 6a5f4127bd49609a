/* The module of mailbox.c that offers the mailbox, and writes there. */

/* Of mailbox.ld. The page belongs to this module and to whom it offers it, and to nobody else. */
extern volatile char mailbox[];

static const char message[] = "at dawn";

void send(void)
{
    for (unsigned long i = 0; i < sizeof message; i++)
        mailbox[i] = message[i];
}
