/*
 * For Apache httpd alone, which is started with this as a library loaded before its own: httpd stays in the locale C,
 * whatever its environment says, and there gss-ntlmssp, which compares a user name with those of its file by the
 * locale's letters, takes no name outside ASCII.
 */
#include <locale.h>

__attribute__((constructor)) static void use_utf8(void)
{
    (void)setlocale(LC_ALL, "C.UTF-8");
}
