/* Prints the size of each struct of the header and the offset of each field, which Rust and Python declare again. */
#include <sqtcp.h>
#include <stdio.h>

#define SIZE(of) printf(#of " %zu\n", sizeof(of))
#define FIELD(of, name) printf(#of "." #name " %zu\n", offsetof(of, name))

int main(void) {
    SIZE(sqtcp);
    FIELD(sqtcp, at);
    FIELD(sqtcp, open);
    SIZE(sqtcp_setting);
    FIELD(sqtcp_setting, idle);
    FIELD(sqtcp_setting, bytes);
    FIELD(sqtcp_setting, places);
    FIELD(sqtcp_setting, secret);
    FIELD(sqtcp_setting, address);
    FIELD(sqtcp_setting, broadcast);
    FIELD(sqtcp_setting, pings);
    FIELD(sqtcp_setting, host);
    FIELD(sqtcp_setting, segment);
    FIELD(sqtcp_setting, echo);
    FIELD(sqtcp_setting, discard);
    FIELD(sqtcp_setting, daytime);
    FIELD(sqtcp_setting, chargen);
    FIELD(sqtcp_setting, ttl);
    FIELD(sqtcp_setting, dscp);
}
