/* Reads an image, and the same image with an edge that ends at no node. */
#include "host.h"

static void read_and_tell(const uint8_t *bytes, size_t count)
{
    uint8_t report[GPC_REPORT_BYTES];
    gpc_read_image(bytes, count, report, sizeof report);
    if (number(report, GPC_REPORT_REFUSAL) == GPC_ACCEPTED)
        puts("accepted");
    else
        printf("refused %d row %d\n", (int)number(report, GPC_REPORT_REFUSAL), (int)number(report, GPC_REPORT_ROW));
}

int main(void)
{
    uint8_t damaged[sizeof image];
    memcpy(damaged, image, sizeof image);
    damaged[28 + 6 * 2 + 2] = NODES; /* edge 2, second end */
    read_and_tell(image, sizeof image);
    read_and_tell(damaged, sizeof damaged);
    read_and_tell(image, 15);
    return 0;
}
