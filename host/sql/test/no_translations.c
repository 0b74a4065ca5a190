/*
 * For a server under the address sanitizer: PostgreSQL asks the C library for translations as it starts, and with the
 * sanitizer's library before it that call waits for a lock for ever. These stand in its place and translate nothing.
 */
#include <stddef.h>

char *bindtextdomain(const char *domain, const char *folder);
char *bind_textdomain_codeset(const char *domain, const char *codeset);
char *textdomain(const char *domain);
char *gettext(const char *one);
char *dgettext(const char *domain, const char *one);
char *dcgettext(const char *domain, const char *one, int category);
char *ngettext(const char *one, const char *many, unsigned long n);
char *dngettext(const char *domain, const char *one, const char *many, unsigned long n);

char *bindtextdomain(const char *domain, const char *folder)
{
    (void)domain;
    return (char *)folder;
}

char *bind_textdomain_codeset(const char *domain, const char *codeset)
{
    (void)domain;
    return (char *)codeset;
}

char *textdomain(const char *domain)
{
    return (char *)domain;
}

char *gettext(const char *one)
{
    return (char *)one;
}

char *dgettext(const char *domain, const char *one)
{
    (void)domain;
    return (char *)one;
}

char *dcgettext(const char *domain, const char *one, int category)
{
    (void)domain, (void)category;
    return (char *)one;
}

char *ngettext(const char *one, const char *many, unsigned long n)
{
    return (char *)(n == 1 ? one : many);
}

char *dngettext(const char *domain, const char *one, const char *many, unsigned long n)
{
    (void)domain;
    return (char *)(n == 1 ? one : many);
}
