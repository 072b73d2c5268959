/* COUNT derivations of a secret of 64 bytes from nine shares, of a threshold of 9: shares COUNT */
#include "codex32.h"

#include <stdio.h>
#include <stdlib.h>
#include <string.h>

/* The shares and the secret were made by a model that shares nothing with the library. */
static const char shares[] =
    "ms1970cwxjx8tcjert6vp4jgreyeje3z72fpsr4cz68s3u4fz4m23972ap53wzjlnfa23wuquptfp0nu7gqct3ts8vsljdmqv5kdvujrfwc9cm2n5tdccm3gm7kd0wt"
    "ms1970cwcdccn0xxp023p464lrtnsr02r0jupgx3ga95h90tw5lwwejpxluex9estm3dzpazna6h7zlsjhe5z9cpwmsv0t8q7l47f3zj4rfeuznfatgxqwut5tyqcfv"
    "ms1970cwjtsldzczy28lsxtfl5a0qsc9nqgc3c5fphx27hzzrmdelfuprle3eca655dhguxkhrf7yc7xkz68pyhu8qgapu6nwu0ta63pfxfp2tqktslswweef4yyv26"
    "ms1970cwre32zpz96cv8h7v2sd4ljg45lygs8xurnsp9ak8ut578hq5ymr9wxy60d9gpnats4r7aa2v2a7tau3mhmhrnxe2r2sgq06hz2j9sjkrec7dh4e9v647f44h"
    "ms1970cw02cmtjlxvc44z3v3296ae5dg8nkhztk86cv62qh64pyr80p2ntlul9l00853luk84733s573wxj4vlcaqdy55lwyejgda50up97egwyfmruvldpd6ffappd"
    "ms1970cw82rlc5uhv20v02zvu8y4ne98x9v7x496n8hm47m0gcg7c2rx22up5t7lx938hqmc4rsqes5gy7sjylk3d3cv522rxhevafmcjw2fgsu3y78r7wtgv3w7jmj"
    "ms1970cwu0z4gfvf0kcvrwpaakj75nnvde4659pn27hecfyafl2unkl9xhhqgac7ecx5mynyx4tzshges8a3hmkjdj3fwg402k0m75lwlw58hfpqghnlnyttyd3rg0n"
    "ms1970cwlpx6e0d3va329rtmc7rpmeewgyekyl3kkdzfdzcyccq6ccpy6e0vyc2em85j4sm2qfzlrmld9fssay48he3emzdyflh25m4u8ynf38hd9t8t082qz34uuke"
    "ms1970cwnwmurr24mlth4m0v8mrf9hfvps2w3q44mjx42u93y292wmru83srrtlkqvfh0dd82c0sqnyprj805d48sepaqeppdzxxx98x6nx0n7zhjqy6hwpp3pgc0je";

static const char secret[] =
    "ms1970cwsat92j5rh9skx5px0u3jevayrwtm3272ujee677ed8srph5j3akd7dje2dymrk65puf9us4tyghxx37vpsqa7tx0fl7yzk9tes7ety8msxt5rrxv6szre6e";

int main(int words, char **word)
{
    static const size_t lengths[] = {127, 127, 127, 127, 127, 127, 127, 127, 127};
    uint8_t text[CODEX32_TEXT_SIZE];
    for (long left = words > 1 ? strtol(word[1], NULL, 10) : 0; left > 0; left--) {
        size_t length = 0;
        if (codex32_derive(CODEX32_SECRET_INDEX, (const uint8_t *)shares, sizeof shares - 1, lengths, 9, text, sizeof text,
                           &length) != CODEX32_OK || length != sizeof secret - 1 || memcmp(text, secret, length) != 0) {
            fputs("shares: not the secret\n", stderr);
            return 1;
        }
    }
    return 0;
}
