#include <gpc.h>
static uint8_t report[GPC_REPORT_BYTES];
int main(void) { return gpc_read_image(0, 0, report, sizeof report) == 1 && report[0] == GPC_IMAGE_TOO_SHORT ? 0 : 1; }
