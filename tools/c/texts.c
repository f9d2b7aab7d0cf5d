/* What is said of a status: each has a text of its own, and another one stands for what is none. */
#include "check.h"
#include "llfree_text.h"

int main(void)
{
    const char *none = llfree_status_text(UINT32_MAX);

    for (uint32_t status = LLFREE_OK; status <= LLFREE_BAD_IMAGE; status++) {
        CHECK(strcmp(llfree_status_text(status), none) != 0);
        for (uint32_t other = LLFREE_OK; other < status; other++)
            CHECK(strcmp(llfree_status_text(status), llfree_status_text(other)) != 0);
    }
    CHECK(strcmp(llfree_status_text(LLFREE_BAD_IMAGE + 1), none) == 0);
    CHECK(strcmp(llfree_version(), LLFREE_VERSION) == 0);
    return 0;
}
