// Made by tools/make (tools/make.d/native_calls) from include/bech32.h; do not edit.

    static int bech32Message(int number, byte[] message, long[] messageLength) {
        long need = STACK_BECH32_MESSAGE;
        long messageAt = need;
        need = behind(need, message.length);
        long messageLengthAt = need;
        need = behind(need, 8);
        if (need > MOST) {
            return NO_MEMORY;
        }
        byte[] m = new byte[(int) need];
        int answer = of_bech32_message(m, STACK_BECH32_MESSAGE, number, messageAt, message.length, messageLengthAt);
        if (answer == 0) {
            messageLength[0] = load64(m, messageLengthAt);
        }
        if (answer == 0) {
            take(m, messageAt, message, (int) messageLength[0]);
        }
        return answer;
    }

    static int bech32Version() {
        long need = STACK_BECH32_VERSION;
        if (need > MOST) {
            return NO_MEMORY;
        }
        byte[] m = new byte[(int) need];
        int answer = of_bech32_version(m, STACK_BECH32_VERSION);
        return answer;
    }

    static int bech32Encode(int checksum, byte[] hrp, byte[] bytes, byte[] text, long[] textLength) {
        long need = STACK_BECH32_ENCODE;
        long hrpAt = need;
        need = behind(need, hrp.length);
        long bytesAt = need;
        need = behind(need, bytes.length);
        long textAt = need;
        need = behind(need, text.length);
        long textLengthAt = need;
        need = behind(need, 8);
        if (need > MOST) {
            return NO_MEMORY;
        }
        byte[] m = new byte[(int) need];
        put(m, hrpAt, hrp);
        put(m, bytesAt, bytes);
        int answer = of_bech32_encode(m, STACK_BECH32_ENCODE, checksum, hrpAt, hrp.length, bytesAt, bytes.length, textAt, text.length, textLengthAt);
        if (answer == 0) {
            textLength[0] = load64(m, textLengthAt);
        }
        if (answer == 0) {
            take(m, textAt, text, (int) textLength[0]);
        }
        return answer;
    }

    static int bech32Decode(byte[] text, byte[] hrp, long[] hrpLength, byte[] bytes, long[] bytesLength) {
        long need = STACK_BECH32_DECODE;
        long textAt = need;
        need = behind(need, text.length);
        long hrpAt = need;
        need = behind(need, hrp.length);
        long hrpLengthAt = need;
        need = behind(need, 8);
        long bytesAt = need;
        need = behind(need, bytes.length);
        long bytesLengthAt = need;
        need = behind(need, 8);
        if (need > MOST) {
            return NO_MEMORY;
        }
        byte[] m = new byte[(int) need];
        put(m, textAt, text);
        int answer = of_bech32_decode(m, STACK_BECH32_DECODE, textAt, text.length, hrpAt, hrp.length, hrpLengthAt, bytesAt, bytes.length, bytesLengthAt);
        if (answer == 0) {
            hrpLength[0] = load64(m, hrpLengthAt);
            bytesLength[0] = load64(m, bytesLengthAt);
        }
        if (answer == 0) {
            take(m, hrpAt, hrp, (int) hrpLength[0]);
        }
        if (answer == 0) {
            take(m, bytesAt, bytes, (int) bytesLength[0]);
        }
        return answer;
    }

    static int bech32DecodeStrict(int checksum, byte[] text, byte[] hrp, long[] hrpLength, byte[] bytes, long[] bytesLength) {
        long need = STACK_BECH32_DECODE_STRICT;
        long textAt = need;
        need = behind(need, text.length);
        long hrpAt = need;
        need = behind(need, hrp.length);
        long hrpLengthAt = need;
        need = behind(need, 8);
        long bytesAt = need;
        need = behind(need, bytes.length);
        long bytesLengthAt = need;
        need = behind(need, 8);
        if (need > MOST) {
            return NO_MEMORY;
        }
        byte[] m = new byte[(int) need];
        put(m, textAt, text);
        int answer = of_bech32_decode_strict(m, STACK_BECH32_DECODE_STRICT, checksum, textAt, text.length, hrpAt, hrp.length, hrpLengthAt, bytesAt, bytes.length, bytesLengthAt);
        if (answer == 0) {
            hrpLength[0] = load64(m, hrpLengthAt);
            bytesLength[0] = load64(m, bytesLengthAt);
        }
        if (answer == 0) {
            take(m, hrpAt, hrp, (int) hrpLength[0]);
        }
        if (answer == 0) {
            take(m, bytesAt, bytes, (int) bytesLength[0]);
        }
        return answer;
    }

    static int bech32DecodeElements(int checksum, byte[] text, byte[] hrp, long[] hrpLength, byte[] elements, long[] elementsLength) {
        long need = STACK_BECH32_DECODE_ELEMENTS;
        long textAt = need;
        need = behind(need, text.length);
        long hrpAt = need;
        need = behind(need, hrp.length);
        long hrpLengthAt = need;
        need = behind(need, 8);
        long elementsAt = need;
        need = behind(need, elements.length);
        long elementsLengthAt = need;
        need = behind(need, 8);
        if (need > MOST) {
            return NO_MEMORY;
        }
        byte[] m = new byte[(int) need];
        put(m, textAt, text);
        int answer = of_bech32_decode_elements(m, STACK_BECH32_DECODE_ELEMENTS, checksum, textAt, text.length, hrpAt, hrp.length, hrpLengthAt, elementsAt, elements.length, elementsLengthAt);
        if (answer == 0) {
            hrpLength[0] = load64(m, hrpLengthAt);
            elementsLength[0] = load64(m, elementsLengthAt);
        }
        if (answer == 0) {
            take(m, hrpAt, hrp, (int) hrpLength[0]);
        }
        if (answer == 0) {
            take(m, elementsAt, elements, (int) elementsLength[0]);
        }
        return answer;
    }

    static int bech32EncodeElements(int checksum, byte[] hrp, byte[] elements, long[] place, byte[] text, long[] textLength) {
        long need = STACK_BECH32_ENCODE_ELEMENTS;
        long hrpAt = need;
        need = behind(need, hrp.length);
        long elementsAt = need;
        need = behind(need, elements.length);
        long placeAt = need;
        need = behind(need, 8);
        long textAt = need;
        need = behind(need, text.length);
        long textLengthAt = need;
        need = behind(need, 8);
        if (need > MOST) {
            return NO_MEMORY;
        }
        byte[] m = new byte[(int) need];
        put(m, hrpAt, hrp);
        put(m, elementsAt, elements);
        int answer = of_bech32_encode_elements(m, STACK_BECH32_ENCODE_ELEMENTS, checksum, hrpAt, hrp.length, elementsAt, elements.length, placeAt, textAt, text.length, textLengthAt);
        if (answer == 67) {
            place[0] = load64(m, placeAt);
        }
        if (answer == 0) {
            textLength[0] = load64(m, textLengthAt);
        }
        if (answer == 0) {
            take(m, textAt, text, (int) textLength[0]);
        }
        return answer;
    }

    static int bech32Check(int checksum, byte[] text, long[] hrpLength, long[] dataLength) {
        long need = STACK_BECH32_CHECK;
        long textAt = need;
        need = behind(need, text.length);
        long hrpLengthAt = need;
        need = behind(need, 8);
        long dataLengthAt = need;
        need = behind(need, 8);
        if (need > MOST) {
            return NO_MEMORY;
        }
        byte[] m = new byte[(int) need];
        put(m, textAt, text);
        int answer = of_bech32_check(m, STACK_BECH32_CHECK, checksum, textAt, text.length, hrpLengthAt, dataLengthAt);
        if (answer == 0) {
            hrpLength[0] = load64(m, hrpLengthAt);
            dataLength[0] = load64(m, dataLengthAt);
        }
        return answer;
    }

    static int bech32Fault(int checksum, byte[] text, long[] place) {
        long need = STACK_BECH32_FAULT;
        long textAt = need;
        need = behind(need, text.length);
        long placeAt = need;
        need = behind(need, 8);
        if (need > MOST) {
            return NO_MEMORY;
        }
        byte[] m = new byte[(int) need];
        put(m, textAt, text);
        int answer = of_bech32_fault(m, STACK_BECH32_FAULT, checksum, textAt, text.length, placeAt);
        if (answer != 0 && answer != 2 && answer != 4) {
            place[0] = load64(m, placeAt);
        }
        return answer;
    }

    static int bech32SegwitEncode(byte[] hrp, int version, byte[] program, byte[] text, long[] textLength) {
        long need = STACK_BECH32_SEGWIT_ENCODE;
        long hrpAt = need;
        need = behind(need, hrp.length);
        long programAt = need;
        need = behind(need, program.length);
        long textAt = need;
        need = behind(need, text.length);
        long textLengthAt = need;
        need = behind(need, 8);
        if (need > MOST) {
            return NO_MEMORY;
        }
        byte[] m = new byte[(int) need];
        put(m, hrpAt, hrp);
        put(m, programAt, program);
        int answer = of_bech32_segwit_encode(m, STACK_BECH32_SEGWIT_ENCODE, hrpAt, hrp.length, version, programAt, program.length, textAt, text.length, textLengthAt);
        if (answer == 0) {
            textLength[0] = load64(m, textLengthAt);
        }
        if (answer == 0) {
            take(m, textAt, text, (int) textLength[0]);
        }
        return answer;
    }

    static int bech32SegwitDecode(byte[] text, byte[] hrp, long[] hrpLength, int[] version, byte[] program, long[] programLength) {
        long need = STACK_BECH32_SEGWIT_DECODE;
        long textAt = need;
        need = behind(need, text.length);
        long hrpAt = need;
        need = behind(need, hrp.length);
        long hrpLengthAt = need;
        need = behind(need, 8);
        long versionAt = need;
        need = behind(need, 8);
        long programAt = need;
        need = behind(need, program.length);
        long programLengthAt = need;
        need = behind(need, 8);
        if (need > MOST) {
            return NO_MEMORY;
        }
        byte[] m = new byte[(int) need];
        put(m, textAt, text);
        int answer = of_bech32_segwit_decode(m, STACK_BECH32_SEGWIT_DECODE, textAt, text.length, hrpAt, hrp.length, hrpLengthAt, versionAt, programAt, program.length, programLengthAt);
        if (answer == 0) {
            hrpLength[0] = load64(m, hrpLengthAt);
            version[0] = load32(m, versionAt);
            programLength[0] = load64(m, programLengthAt);
        }
        if (answer == 0) {
            take(m, hrpAt, hrp, (int) hrpLength[0]);
        }
        if (answer == 0) {
            take(m, programAt, program, (int) programLength[0]);
        }
        return answer;
    }

    static int bech32Residue(int checksum, byte[] elements, int[] residue) {
        long need = STACK_BECH32_RESIDUE;
        long elementsAt = need;
        need = behind(need, elements.length);
        long residueAt = need;
        need = behind(need, 8);
        if (need > MOST) {
            return NO_MEMORY;
        }
        byte[] m = new byte[(int) need];
        put(m, elementsAt, elements);
        int answer = of_bech32_residue(m, STACK_BECH32_RESIDUE, checksum, elementsAt, elements.length, residueAt);
        if (answer == 0) {
            residue[0] = load32(m, residueAt);
        }
        return answer;
    }

    static int bech32Correct(int checksum, byte[] text, long[] erasures, long[] locations, byte[] values, long[] count, byte[] mended, long[] mendedLength) {
        long need = STACK_BECH32_CORRECT;
        long textAt = need;
        need = behind(need, text.length);
        long erasuresAt = need;
        need = behind(need, 8L * erasures.length);
        long locationsAt = need;
        need = behind(need, 8L * locations.length);
        long valuesAt = need;
        need = behind(need, values.length);
        long countAt = need;
        need = behind(need, 8);
        long mendedAt = need;
        need = behind(need, mended.length);
        long mendedLengthAt = need;
        need = behind(need, 8);
        if (need > MOST) {
            return NO_MEMORY;
        }
        byte[] m = new byte[(int) need];
        put(m, textAt, text);
        putNumbers(m, erasuresAt, erasures);
        putNumbers(m, locationsAt, locations);
        put(m, valuesAt, values);
        int answer = of_bech32_correct(m, STACK_BECH32_CORRECT, checksum, textAt, text.length, erasuresAt, erasures.length, locationsAt, locations.length, valuesAt, values.length, countAt, mendedAt, mended.length, mendedLengthAt);
        if (answer == 0) {
            count[0] = load64(m, countAt);
            mendedLength[0] = load64(m, mendedLengthAt);
        }
        takeNumbers(m, locationsAt, locations);
        take(m, valuesAt, values, values.length);
        if (answer == 0) {
            take(m, mendedAt, mended, (int) mendedLength[0]);
        }
        return answer;
    }

    static int bech32Nearest(int checksum, byte[] text, long[] erasures, long errors, int memory, byte[] texts, long[] count) {
        long need = STACK_BECH32_NEAREST;
        long textAt = need;
        need = behind(need, text.length);
        long erasuresAt = need;
        need = behind(need, 8L * erasures.length);
        long memoryAt = need;
        need = behind(need, memory + 16L);
        long textsAt = need;
        need = behind(need, texts.length);
        long countAt = need;
        need = behind(need, 8);
        if (need > MOST) {
            return NO_MEMORY;
        }
        byte[] m = new byte[(int) need];
        put(m, textAt, text);
        putNumbers(m, erasuresAt, erasures);
        store64(m, memoryAt, memoryAt + 16);
        store64(m, memoryAt + 8, memory);
        put(m, textsAt, texts);
        int answer = of_bech32_nearest(m, STACK_BECH32_NEAREST, checksum, textAt, text.length, erasuresAt, erasures.length, errors, memoryAt, textsAt, texts.length, countAt);
        if (answer == 0 || answer == 92) {
            count[0] = load64(m, countAt);
        }
        take(m, textsAt, texts, texts.length);
        return answer;
    }

    static int bech32NearEdits(int checksum, byte[] text, int memory, byte[] kinds, long[] locations, byte[] texts, long[] count) {
        long need = STACK_BECH32_NEAR_EDITS;
        long textAt = need;
        need = behind(need, text.length);
        long memoryAt = need;
        need = behind(need, memory + 16L);
        long kindsAt = need;
        need = behind(need, kinds.length);
        long locationsAt = need;
        need = behind(need, 8L * locations.length);
        long textsAt = need;
        need = behind(need, texts.length);
        long countAt = need;
        need = behind(need, 8);
        if (need > MOST) {
            return NO_MEMORY;
        }
        byte[] m = new byte[(int) need];
        put(m, textAt, text);
        store64(m, memoryAt, memoryAt + 16);
        store64(m, memoryAt + 8, memory);
        put(m, kindsAt, kinds);
        putNumbers(m, locationsAt, locations);
        put(m, textsAt, texts);
        int answer = of_bech32_near_edits(m, STACK_BECH32_NEAR_EDITS, checksum, textAt, text.length, memoryAt, kindsAt, kinds.length, locationsAt, locations.length, textsAt, texts.length, countAt);
        if (answer == 0 || answer == 92) {
            count[0] = load64(m, countAt);
        }
        take(m, kindsAt, kinds, kinds.length);
        takeNumbers(m, locationsAt, locations);
        take(m, textsAt, texts, texts.length);
        return answer;
    }

    static int bech32LiquidEncode(byte[] hrp, int version, byte[] key, byte[] program, byte[] text, long[] textLength) {
        long need = STACK_BECH32_LIQUID_ENCODE;
        long hrpAt = need;
        need = behind(need, hrp.length);
        long keyAt = need;
        need = behind(need, 33);
        long programAt = need;
        need = behind(need, program.length);
        long textAt = need;
        need = behind(need, text.length);
        long textLengthAt = need;
        need = behind(need, 8);
        if (need > MOST) {
            return NO_MEMORY;
        }
        byte[] m = new byte[(int) need];
        put(m, hrpAt, hrp);
        put(m, keyAt, key);
        put(m, programAt, program);
        int answer = of_bech32_liquid_encode(m, STACK_BECH32_LIQUID_ENCODE, hrpAt, hrp.length, version, keyAt, programAt, program.length, textAt, text.length, textLengthAt);
        if (answer == 0) {
            textLength[0] = load64(m, textLengthAt);
        }
        if (answer == 0) {
            take(m, textAt, text, (int) textLength[0]);
        }
        return answer;
    }

    static int bech32LiquidDecode(byte[] text, byte[] hrp, long[] hrpLength, int[] version, byte[] key, byte[] program, long[] programLength) {
        long need = STACK_BECH32_LIQUID_DECODE;
        long textAt = need;
        need = behind(need, text.length);
        long hrpAt = need;
        need = behind(need, hrp.length);
        long hrpLengthAt = need;
        need = behind(need, 8);
        long versionAt = need;
        need = behind(need, 8);
        long keyAt = need;
        need = behind(need, 33);
        long programAt = need;
        need = behind(need, program.length);
        long programLengthAt = need;
        need = behind(need, 8);
        if (need > MOST) {
            return NO_MEMORY;
        }
        byte[] m = new byte[(int) need];
        put(m, textAt, text);
        put(m, keyAt, key);
        int answer = of_bech32_liquid_decode(m, STACK_BECH32_LIQUID_DECODE, textAt, text.length, hrpAt, hrp.length, hrpLengthAt, versionAt, keyAt, programAt, program.length, programLengthAt);
        if (answer == 0) {
            hrpLength[0] = load64(m, hrpLengthAt);
            version[0] = load32(m, versionAt);
            programLength[0] = load64(m, programLengthAt);
        }
        if (answer == 0) {
            take(m, hrpAt, hrp, (int) hrpLength[0]);
        }
        take(m, keyAt, key, key.length);
        if (answer == 0) {
            take(m, programAt, program, (int) programLength[0]);
        }
        return answer;
    }

    static int bech32LiquidNearest(byte[] text, long[] erasures, long errors, int memory, byte[] texts, long[] count) {
        long need = STACK_BECH32_LIQUID_NEAREST;
        long textAt = need;
        need = behind(need, text.length);
        long erasuresAt = need;
        need = behind(need, 8L * erasures.length);
        long memoryAt = need;
        need = behind(need, memory + 16L);
        long textsAt = need;
        need = behind(need, texts.length);
        long countAt = need;
        need = behind(need, 8);
        if (need > MOST) {
            return NO_MEMORY;
        }
        byte[] m = new byte[(int) need];
        put(m, textAt, text);
        putNumbers(m, erasuresAt, erasures);
        store64(m, memoryAt, memoryAt + 16);
        store64(m, memoryAt + 8, memory);
        put(m, textsAt, texts);
        int answer = of_bech32_liquid_nearest(m, STACK_BECH32_LIQUID_NEAREST, textAt, text.length, erasuresAt, erasures.length, errors, memoryAt, textsAt, texts.length, countAt);
        if (answer == 0 || answer == 92) {
            count[0] = load64(m, countAt);
        }
        take(m, textsAt, texts, texts.length);
        return answer;
    }

    static int bech32DescriptorChecksum(byte[] text, byte[] checksum, long[] checksumLength, long[] place) {
        long need = STACK_BECH32_DESCRIPTOR_CHECKSUM;
        long textAt = need;
        need = behind(need, text.length);
        long checksumAt = need;
        need = behind(need, checksum.length);
        long checksumLengthAt = need;
        need = behind(need, 8);
        long placeAt = need;
        need = behind(need, 8);
        if (need > MOST) {
            return NO_MEMORY;
        }
        byte[] m = new byte[(int) need];
        put(m, textAt, text);
        int answer = of_bech32_descriptor_checksum(m, STACK_BECH32_DESCRIPTOR_CHECKSUM, textAt, text.length, checksumAt, checksum.length, checksumLengthAt, placeAt);
        if (answer == 0) {
            checksumLength[0] = load64(m, checksumLengthAt);
        }
        if (answer == 80) {
            place[0] = load64(m, placeAt);
        }
        if (answer == 0) {
            take(m, checksumAt, checksum, (int) checksumLength[0]);
        }
        java.util.Arrays.fill(m, (byte) 0);
        return answer;
    }

    static int bech32DescriptorCheck(byte[] text, long[] place) {
        long need = STACK_BECH32_DESCRIPTOR_CHECK;
        long textAt = need;
        need = behind(need, text.length);
        long placeAt = need;
        need = behind(need, 8);
        if (need > MOST) {
            return NO_MEMORY;
        }
        byte[] m = new byte[(int) need];
        put(m, textAt, text);
        int answer = of_bech32_descriptor_check(m, STACK_BECH32_DESCRIPTOR_CHECK, textAt, text.length, placeAt);
        if (answer == 80) {
            place[0] = load64(m, placeAt);
        }
        java.util.Arrays.fill(m, (byte) 0);
        return answer;
    }

    static int bech32DescriptorMend(byte[] text, long changed, int memory, byte[] kinds, long[] places, byte[] texts, long[] count) {
        long need = STACK_BECH32_DESCRIPTOR_MEND;
        long textAt = need;
        need = behind(need, text.length);
        long memoryAt = need;
        need = behind(need, memory + 16L);
        long kindsAt = need;
        need = behind(need, kinds.length);
        long placesAt = need;
        need = behind(need, 8L * places.length);
        long textsAt = need;
        need = behind(need, texts.length);
        long countAt = need;
        need = behind(need, 8);
        if (need > MOST) {
            return NO_MEMORY;
        }
        byte[] m = new byte[(int) need];
        put(m, textAt, text);
        store64(m, memoryAt, memoryAt + 16);
        store64(m, memoryAt + 8, memory);
        put(m, kindsAt, kinds);
        putNumbers(m, placesAt, places);
        put(m, textsAt, texts);
        int answer = of_bech32_descriptor_mend(m, STACK_BECH32_DESCRIPTOR_MEND, textAt, text.length, changed, memoryAt, kindsAt, kinds.length, placesAt, places.length, textsAt, texts.length, countAt);
        if (answer == 0 || answer == 92) {
            count[0] = load64(m, countAt);
        }
        take(m, kindsAt, kinds, kinds.length);
        takeNumbers(m, placesAt, places);
        take(m, textsAt, texts, texts.length);
        java.util.Arrays.fill(m, (byte) 0);
        return answer;
    }

    static int bech32DescriptorMendTwo(byte[] text, int memory, long[] places, byte[] texts, long[] count) {
        long need = STACK_BECH32_DESCRIPTOR_MEND_TWO;
        long textAt = need;
        need = behind(need, text.length);
        long memoryAt = need;
        need = behind(need, memory + 16L);
        long placesAt = need;
        need = behind(need, 8L * places.length);
        long textsAt = need;
        need = behind(need, texts.length);
        long countAt = need;
        need = behind(need, 8);
        if (need > MOST) {
            return NO_MEMORY;
        }
        byte[] m = new byte[(int) need];
        put(m, textAt, text);
        store64(m, memoryAt, memoryAt + 16);
        store64(m, memoryAt + 8, memory);
        putNumbers(m, placesAt, places);
        put(m, textsAt, texts);
        int answer = of_bech32_descriptor_mend_two(m, STACK_BECH32_DESCRIPTOR_MEND_TWO, textAt, text.length, memoryAt, placesAt, places.length, textsAt, texts.length, countAt);
        if (answer == 0 || answer == 92) {
            count[0] = load64(m, countAt);
        }
        takeNumbers(m, placesAt, places);
        take(m, textsAt, texts, texts.length);
        java.util.Arrays.fill(m, (byte) 0);
        return answer;
    }

    static int bech32Suggest(byte[] text, byte[] hrp, int memory, byte[] kinds, long[] places, byte[] texts, long[] count) {
        long need = STACK_BECH32_SUGGEST;
        long textAt = need;
        need = behind(need, text.length);
        long hrpAt = need;
        need = behind(need, hrp.length);
        long memoryAt = need;
        need = behind(need, memory + 16L);
        long kindsAt = need;
        need = behind(need, kinds.length);
        long placesAt = need;
        need = behind(need, 8L * places.length);
        long textsAt = need;
        need = behind(need, texts.length);
        long countAt = need;
        need = behind(need, 8);
        if (need > MOST) {
            return NO_MEMORY;
        }
        byte[] m = new byte[(int) need];
        put(m, textAt, text);
        put(m, hrpAt, hrp);
        store64(m, memoryAt, memoryAt + 16);
        store64(m, memoryAt + 8, memory);
        put(m, kindsAt, kinds);
        putNumbers(m, placesAt, places);
        put(m, textsAt, texts);
        int answer = of_bech32_suggest(m, STACK_BECH32_SUGGEST, textAt, text.length, hrpAt, hrp.length, memoryAt, kindsAt, kinds.length, placesAt, places.length, textsAt, texts.length, countAt);
        if (answer == 0 || answer == 92) {
            count[0] = load64(m, countAt);
        }
        take(m, kindsAt, kinds, kinds.length);
        takeNumbers(m, placesAt, places);
        take(m, textsAt, texts, texts.length);
        return answer;
    }

    static int bech32CheckMany(int checksum, Column texts, long first, byte[] numbers) {
        Part textsPart = Part.of(texts, first, numbers.length);
        if (textsPart == null) {
            return 4;
        }
        long need = STACK_BECH32_CHECK_MANY;
        long textsAt = need;
        need = behind(need, textsPart.size());
        long numbersAt = need;
        need = behind(need, numbers.length);
        if (need > MOST) {
            return NO_MEMORY;
        }
        byte[] m = new byte[(int) need];
        textsPart.put(m, textsAt);
        put(m, numbersAt, numbers);
        int answer = of_bech32_check_many(m, STACK_BECH32_CHECK_MANY, checksum, textsAt, first % 8, numbersAt, numbers.length);
        take(m, numbersAt, numbers, numbers.length);
        return answer;
    }

    static int bech32SegwitDecodeMany(Column texts, long first, byte[] hrp, byte[] numbers, byte[] versions, byte[] hrpLengths, int[] programOffsets, byte[] programs, long[] done) {
        Part textsPart = Part.of(texts, first, numbers.length);
        if (textsPart == null) {
            return 4;
        }
        long need = STACK_BECH32_SEGWIT_DECODE_MANY;
        long textsAt = need;
        need = behind(need, textsPart.size());
        long hrpAt = need;
        need = behind(need, hrp.length);
        long numbersAt = need;
        need = behind(need, numbers.length);
        long versionsAt = need;
        need = behind(need, versions.length);
        long hrpLengthsAt = need;
        need = behind(need, hrpLengths.length);
        long programOffsetsAt = need;
        need = behind(need, 4L * programOffsets.length);
        long programsAt = need;
        need = behind(need, programs.length);
        long doneAt = need;
        need = behind(need, 8);
        if (need > MOST) {
            return NO_MEMORY;
        }
        byte[] m = new byte[(int) need];
        textsPart.put(m, textsAt);
        put(m, hrpAt, hrp);
        put(m, numbersAt, numbers);
        put(m, versionsAt, versions);
        put(m, hrpLengthsAt, hrpLengths);
        putOffsets(m, programOffsetsAt, programOffsets);
        put(m, programsAt, programs);
        int answer = of_bech32_segwit_decode_many(m, STACK_BECH32_SEGWIT_DECODE_MANY, textsAt, first % 8, hrpAt, hrp.length, numbersAt, numbers.length, versionsAt, versions.length, hrpLengthsAt, hrpLengths.length, programOffsetsAt, programOffsets.length, programsAt, programs.length, doneAt);
        if (answer == 0 || answer == 92) {
            done[0] = load64(m, doneAt);
        }
        take(m, numbersAt, numbers, numbers.length);
        take(m, versionsAt, versions, versions.length);
        take(m, hrpLengthsAt, hrpLengths, hrpLengths.length);
        takeOffsets(m, programOffsetsAt, programOffsets);
        take(m, programsAt, programs, programs.length);
        return answer;
    }

    static int bech32SegwitEncodeMany(byte[] hrp, byte[] versions, Column programs, long first, byte[] numbers, int[] textOffsets, byte[] texts, long[] done) {
        Part programsPart = Part.of(programs, first, numbers.length);
        if (programsPart == null) {
            return 4;
        }
        if (versions.length < numbers.length) {
            return 4;
        }
        long need = STACK_BECH32_SEGWIT_ENCODE_MANY;
        long hrpAt = need;
        need = behind(need, hrp.length);
        long versionsAt = need;
        need = behind(need, versions.length);
        long programsAt = need;
        need = behind(need, programsPart.size());
        long numbersAt = need;
        need = behind(need, numbers.length);
        long textOffsetsAt = need;
        need = behind(need, 4L * textOffsets.length);
        long textsAt = need;
        need = behind(need, texts.length);
        long doneAt = need;
        need = behind(need, 8);
        if (need > MOST) {
            return NO_MEMORY;
        }
        byte[] m = new byte[(int) need];
        put(m, hrpAt, hrp);
        put(m, versionsAt, versions);
        programsPart.put(m, programsAt);
        put(m, numbersAt, numbers);
        putOffsets(m, textOffsetsAt, textOffsets);
        put(m, textsAt, texts);
        int answer = of_bech32_segwit_encode_many(m, STACK_BECH32_SEGWIT_ENCODE_MANY, hrpAt, hrp.length, versionsAt, versions.length, programsAt, first % 8, numbersAt, numbers.length, textOffsetsAt, textOffsets.length, textsAt, texts.length, doneAt);
        if (answer == 0 || answer == 92) {
            done[0] = load64(m, doneAt);
        }
        take(m, numbersAt, numbers, numbers.length);
        takeOffsets(m, textOffsetsAt, textOffsets);
        take(m, textsAt, texts, texts.length);
        return answer;
    }

    static int bech32ValidityOf(byte[] numbers, byte[] validity, long[] accepted) {
        long need = STACK_BECH32_VALIDITY_OF;
        long numbersAt = need;
        need = behind(need, numbers.length);
        long validityAt = need;
        need = behind(need, validity.length);
        long acceptedAt = need;
        need = behind(need, 8);
        if (need > MOST) {
            return NO_MEMORY;
        }
        byte[] m = new byte[(int) need];
        put(m, numbersAt, numbers);
        put(m, validityAt, validity);
        int answer = of_bech32_validity_of(m, STACK_BECH32_VALIDITY_OF, numbersAt, numbers.length, validityAt, validity.length, acceptedAt);
        if (answer == 0) {
            accepted[0] = load64(m, acceptedAt);
        }
        take(m, validityAt, validity, validity.length);
        return answer;
    }
