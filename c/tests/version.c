/* The version of the header, of which the number is that of the text, and that of the library. */
#include "wtransport.h"
#include "check.h"

void test_version(void) {
  char text[16];
  uint32_t number = wt_version();
  snprintf(text, sizeof text, "%u.%u.%u", (unsigned)(number >> 16), (unsigned)(number >> 8 & 0xff),
           (unsigned)(number & 0xff));
  CHECK(number == WT_VERSION_NUMBER);
  CHECK(strcmp(text, WT_VERSION) == 0);
}
