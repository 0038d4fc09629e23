/* What the shared library of tools/crest has beside the proved calls: their version and the sentences of refusals. */
#include "crest.h"
#include "crest_text.h"

const char *calls_version(void);
const char *calls_sentence(uint32_t number);

const char *calls_version(void)
{
    return CREST_VERSION_TEXT;
}

const char *calls_sentence(uint32_t number)
{
    return crest_refusal_text(number);
}
