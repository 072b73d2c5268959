// Made by tools/make (tools/make.d/native_calls) from include/codex32.h; do not edit.

    static int codex32Message(int number, byte[] message, long[] messageLength) {
        long need = STACK_CODEX32_MESSAGE;
        long messageAt = need;
        need = behind(need, message.length);
        long messageLengthAt = need;
        need = behind(need, 8);
        if (need > MOST) {
            return NO_MEMORY;
        }
        byte[] m = new byte[(int) need];
        int answer = of_codex32_message(m, STACK_CODEX32_MESSAGE, number, messageAt, message.length, messageLengthAt);
        if (answer == 0) {
            messageLength[0] = load64(m, messageLengthAt);
        }
        if (answer == 0) {
            take(m, messageAt, message, (int) messageLength[0]);
        }
        return answer;
    }

    static int codex32Version() {
        long need = STACK_CODEX32_VERSION;
        if (need > MOST) {
            return NO_MEMORY;
        }
        byte[] m = new byte[(int) need];
        int answer = of_codex32_version(m, STACK_CODEX32_VERSION);
        return answer;
    }

    static int codex32Parse(byte[] text, int[] threshold, int[] shareIndex, long[] payloadLength) {
        long need = STACK_CODEX32_PARSE;
        long textAt = need;
        need = behind(need, text.length);
        long thresholdAt = need;
        need = behind(need, 8);
        long shareIndexAt = need;
        need = behind(need, 8);
        long payloadLengthAt = need;
        need = behind(need, 8);
        if (need > MOST) {
            return NO_MEMORY;
        }
        byte[] m = new byte[(int) need];
        put(m, textAt, text);
        int answer = of_codex32_parse(m, STACK_CODEX32_PARSE, textAt, text.length, thresholdAt, shareIndexAt, payloadLengthAt);
        if (answer == 0) {
            threshold[0] = load32(m, thresholdAt);
            shareIndex[0] = load32(m, shareIndexAt);
            payloadLength[0] = load64(m, payloadLengthAt);
        }
        java.util.Arrays.fill(m, (byte) 0);
        return answer;
    }

    static int codex32Share(byte[] text, int[] threshold, byte[] identifier, int[] shareIndex, byte[] bytes, long[] bytesLength) {
        long need = STACK_CODEX32_SHARE;
        long textAt = need;
        need = behind(need, text.length);
        long thresholdAt = need;
        need = behind(need, 8);
        long identifierAt = need;
        need = behind(need, 4);
        long shareIndexAt = need;
        need = behind(need, 8);
        long bytesAt = need;
        need = behind(need, bytes.length);
        long bytesLengthAt = need;
        need = behind(need, 8);
        if (need > MOST) {
            return NO_MEMORY;
        }
        byte[] m = new byte[(int) need];
        put(m, textAt, text);
        put(m, identifierAt, identifier);
        int answer = of_codex32_share(m, STACK_CODEX32_SHARE, textAt, text.length, thresholdAt, identifierAt, shareIndexAt, bytesAt, bytes.length, bytesLengthAt);
        if (answer == 0) {
            threshold[0] = load32(m, thresholdAt);
            shareIndex[0] = load32(m, shareIndexAt);
            bytesLength[0] = load64(m, bytesLengthAt);
        }
        take(m, identifierAt, identifier, identifier.length);
        if (answer == 0) {
            take(m, bytesAt, bytes, (int) bytesLength[0]);
        }
        java.util.Arrays.fill(m, (byte) 0);
        return answer;
    }

    static int codex32Encode(int threshold, byte[] identifier, int shareIndex, byte[] bytes, byte[] text, long[] textLength) {
        long need = STACK_CODEX32_ENCODE;
        long identifierAt = need;
        need = behind(need, identifier.length);
        long bytesAt = need;
        need = behind(need, bytes.length);
        long textAt = need;
        need = behind(need, text.length);
        long textLengthAt = need;
        need = behind(need, 8);
        if (need > MOST) {
            return NO_MEMORY;
        }
        byte[] m = new byte[(int) need];
        put(m, identifierAt, identifier);
        put(m, bytesAt, bytes);
        int answer = of_codex32_encode(m, STACK_CODEX32_ENCODE, threshold, identifierAt, identifier.length, shareIndex, bytesAt, bytes.length, textAt, text.length, textLengthAt);
        if (answer == 0) {
            textLength[0] = load64(m, textLengthAt);
        }
        if (answer == 0) {
            take(m, textAt, text, (int) textLength[0]);
        }
        java.util.Arrays.fill(m, (byte) 0);
        return answer;
    }

    static int codex32EncodePayload(int threshold, byte[] identifier, int shareIndex, byte[] payload, byte[] text, long[] textLength) {
        long need = STACK_CODEX32_ENCODE_PAYLOAD;
        long identifierAt = need;
        need = behind(need, identifier.length);
        long payloadAt = need;
        need = behind(need, payload.length);
        long textAt = need;
        need = behind(need, text.length);
        long textLengthAt = need;
        need = behind(need, 8);
        if (need > MOST) {
            return NO_MEMORY;
        }
        byte[] m = new byte[(int) need];
        put(m, identifierAt, identifier);
        put(m, payloadAt, payload);
        int answer = of_codex32_encode_payload(m, STACK_CODEX32_ENCODE_PAYLOAD, threshold, identifierAt, identifier.length, shareIndex, payloadAt, payload.length, textAt, text.length, textLengthAt);
        if (answer == 0) {
            textLength[0] = load64(m, textLengthAt);
        }
        if (answer == 0) {
            take(m, textAt, text, (int) textLength[0]);
        }
        java.util.Arrays.fill(m, (byte) 0);
        return answer;
    }

    static int codex32Derive(int shareIndex, byte[] texts, long[] lengths, byte[] text, long[] textLength) {
        long need = STACK_CODEX32_DERIVE;
        long textsAt = need;
        need = behind(need, texts.length);
        long lengthsAt = need;
        need = behind(need, 8L * lengths.length);
        long textAt = need;
        need = behind(need, text.length);
        long textLengthAt = need;
        need = behind(need, 8);
        if (need > MOST) {
            return NO_MEMORY;
        }
        byte[] m = new byte[(int) need];
        put(m, textsAt, texts);
        putNumbers(m, lengthsAt, lengths);
        int answer = of_codex32_derive(m, STACK_CODEX32_DERIVE, shareIndex, textsAt, texts.length, lengthsAt, lengths.length, textAt, text.length, textLengthAt);
        if (answer == 0) {
            textLength[0] = load64(m, textLengthAt);
        }
        if (answer == 0) {
            take(m, textAt, text, (int) textLength[0]);
        }
        java.util.Arrays.fill(m, (byte) 0);
        return answer;
    }

    static int codex32Split(int threshold, byte[] identifier, byte[] secret, byte[] random, long count, byte[] texts, long[] textLength) {
        long need = STACK_CODEX32_SPLIT;
        long identifierAt = need;
        need = behind(need, identifier.length);
        long secretAt = need;
        need = behind(need, secret.length);
        long randomAt = need;
        need = behind(need, random.length);
        long textsAt = need;
        need = behind(need, texts.length);
        long textLengthAt = need;
        need = behind(need, 8);
        if (need > MOST) {
            return NO_MEMORY;
        }
        byte[] m = new byte[(int) need];
        put(m, identifierAt, identifier);
        put(m, secretAt, secret);
        put(m, randomAt, random);
        put(m, textsAt, texts);
        int answer = of_codex32_split(m, STACK_CODEX32_SPLIT, threshold, identifierAt, identifier.length, secretAt, secret.length, randomAt, random.length, count, textsAt, texts.length, textLengthAt);
        if (answer == 0) {
            textLength[0] = load64(m, textLengthAt);
        }
        take(m, textsAt, texts, texts.length);
        java.util.Arrays.fill(m, (byte) 0);
        return answer;
    }

    static int codex32Recover(byte[] texts, long[] lengths, byte[] bytes, long[] bytesLength) {
        long need = STACK_CODEX32_RECOVER;
        long textsAt = need;
        need = behind(need, texts.length);
        long lengthsAt = need;
        need = behind(need, 8L * lengths.length);
        long bytesAt = need;
        need = behind(need, bytes.length);
        long bytesLengthAt = need;
        need = behind(need, 8);
        if (need > MOST) {
            return NO_MEMORY;
        }
        byte[] m = new byte[(int) need];
        put(m, textsAt, texts);
        putNumbers(m, lengthsAt, lengths);
        int answer = of_codex32_recover(m, STACK_CODEX32_RECOVER, textsAt, texts.length, lengthsAt, lengths.length, bytesAt, bytes.length, bytesLengthAt);
        if (answer == 0) {
            bytesLength[0] = load64(m, bytesLengthAt);
        }
        if (answer == 0) {
            take(m, bytesAt, bytes, (int) bytesLength[0]);
        }
        java.util.Arrays.fill(m, (byte) 0);
        return answer;
    }

    static int codex32Propose(byte[] text, int memory, byte[] proposed, long[] proposedLength) {
        long need = STACK_CODEX32_PROPOSE;
        long textAt = need;
        need = behind(need, text.length);
        long memoryAt = need;
        need = behind(need, memory + 16L);
        long proposedAt = need;
        need = behind(need, proposed.length);
        long proposedLengthAt = need;
        need = behind(need, 8);
        if (need > MOST) {
            return NO_MEMORY;
        }
        byte[] m = new byte[(int) need];
        put(m, textAt, text);
        store64(m, memoryAt, memoryAt + 16);
        store64(m, memoryAt + 8, memory);
        int answer = of_codex32_propose(m, STACK_CODEX32_PROPOSE, textAt, text.length, memoryAt, proposedAt, proposed.length, proposedLengthAt);
        if (answer == 0) {
            proposedLength[0] = load64(m, proposedLengthAt);
        }
        if (answer == 0) {
            take(m, proposedAt, proposed, (int) proposedLength[0]);
        }
        java.util.Arrays.fill(m, (byte) 0);
        return answer;
    }

    static int codex32ProposeLong(byte[] text, int memory, byte[] proposed, long[] proposedLength) {
        long need = STACK_CODEX32_PROPOSE_LONG;
        long textAt = need;
        need = behind(need, text.length);
        long memoryAt = need;
        need = behind(need, memory + 16L);
        long proposedAt = need;
        need = behind(need, proposed.length);
        long proposedLengthAt = need;
        need = behind(need, 8);
        if (need > MOST) {
            return NO_MEMORY;
        }
        byte[] m = new byte[(int) need];
        put(m, textAt, text);
        store64(m, memoryAt, memoryAt + 16);
        store64(m, memoryAt + 8, memory);
        int answer = of_codex32_propose_long(m, STACK_CODEX32_PROPOSE_LONG, textAt, text.length, memoryAt, proposedAt, proposed.length, proposedLengthAt);
        if (answer == 0) {
            proposedLength[0] = load64(m, proposedLengthAt);
        }
        if (answer == 0) {
            take(m, proposedAt, proposed, (int) proposedLength[0]);
        }
        java.util.Arrays.fill(m, (byte) 0);
        return answer;
    }
