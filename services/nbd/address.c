/* Where nbdkit listens for clients. */
#include "service.h"
#include <arpa/inet.h>
#include <netinet/in.h>
#include <string.h>
#include <sys/socket.h>
#include <sys/un.h>

typedef union address { struct sockaddr any; struct sockaddr_un local; struct sockaddr_in v4; struct sockaddr_in6 v6; } address;

/* The host to connect to for a socket that listens on this address: localhost if it listens on all of them. */
static const char *host_of(const address *name, char text[INET6_ADDRSTRLEN + 2])
{
    const bool is_v6 = name->any.sa_family == AF_INET6;
    if (is_v6 ? IN6_IS_ADDR_UNSPECIFIED(&name->v6.sin6_addr) : name->v4.sin_addr.s_addr == htonl(INADDR_ANY))
        return "localhost";
    text[0] = '[';
    if (inet_ntop(name->any.sa_family, is_v6 ? (const void *)&name->v6.sin6_addr : &name->v4.sin_addr, text + is_v6, INET6_ADDRSTRLEN) == NULL)
        return "localhost";
    return is_v6 ? strcat(text, "]") : text;
}

static bool tell_name(int at, char *text, size_t most)
{
    address name = {0};
    char host[INET6_ADDRSTRLEN + 2];
    socklen_t length = sizeof name - 1;
    int listens = 0;
    socklen_t size = sizeof listens;
    if (is_of_control(at) || getsockopt(at, SOL_SOCKET, SO_ACCEPTCONN, &listens, &size) != 0 || !listens ||
        getsockname(at, &name.any, &length) != 0)
        return false;
    if (name.any.sa_family == AF_UNIX && name.local.sun_path[0] == '/')
        return snprintf(text, most, "unix:%s", name.local.sun_path) > 0;
    if (name.any.sa_family == AF_INET || name.any.sa_family == AF_INET6)
        return snprintf(text, most, "tcp:%s:%d", host_of(&name, host), ntohs(name.v4.sin_port)) > 0; /* the port is at the same place in both */
    return false;
}

/* nbdkit doesn't tell a filter where it listens. Its sockets are among the first descriptors of this process. */
void tell_address(char *text, size_t most)
{
    enum { DESCRIPTORS = 256 };
    for (int at = 0; at < DESCRIPTORS; at++)
        if (tell_name(at, text, most))
            return;
    snprintf(text, most, "none");
}

void say_address(controller *to)
{
    char address[ADDRESS], text[sizeof address + 16];
    tell_address(address, sizeof address);
    snprintf(text, sizeof text, "address %s", address);
    say(to, text);
}
