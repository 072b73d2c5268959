package bech32proved;

import java.lang.invoke.MethodHandles;
import java.lang.invoke.VarHandle;
import java.nio.ByteOrder;
import java.util.Arrays;

/**
 * The machine on which the functions of a library for wasm64 run. A call makes its memory, one array: the library's stack, and
 * then copies of what the call is given and room for what it writes. An address below 2^32 is a place in that array; from 2^32 on
 * it is one of the constants, which nothing writes to. Java tests each access to be within the array or within the constants: a
 * wrong translation may give a wrong answer or an exception, and no fault of memory.
 */
final class Machine {
    private Machine() {}

    /** The address of the first constant. */
    private static final long FIRST = 1L << 32;

    private static final VarHandle SHORT = MethodHandles.byteArrayViewVarHandle(short[].class, ByteOrder.LITTLE_ENDIAN);
    private static final VarHandle INT = MethodHandles.byteArrayViewVarHandle(int[].class, ByteOrder.LITTLE_ENDIAN);
    private static final VarHandle LONG = MethodHandles.byteArrayViewVarHandle(long[].class, ByteOrder.LITTLE_ENDIAN);

    /** What the library does where it does what it is proved never to do. */
    private static IllegalStateException trap() {
        throw new IllegalStateException("the library did what it is proved never to do");
    }

    // Numbers that are known to be on the stack.

    private static int load8OfStack(byte[] m, long a) {
        return m[(int) a] & 255;
    }

    private static int load16OfStack(byte[] m, long a) {
        return (short) SHORT.get(m, (int) a) & 65535;
    }

    private static int load32OfStack(byte[] m, long a) {
        return (int) INT.get(m, (int) a);
    }

    private static long load64OfStack(byte[] m, long a) {
        return (long) LONG.get(m, (int) a);
    }

    // Numbers in memory, or else among the constants.

    private static int load8(byte[] m, long a) {
        return a >>> 32 == 0 ? m[(int) a] & 255 : CONSTANTS[index(a - FIRST)] & 255;
    }

    private static int load16(byte[] m, long a) {
        return (a >>> 32 == 0 ? (short) SHORT.get(m, (int) a) : (short) SHORT.get(CONSTANTS, index(a - FIRST))) & 65535;
    }

    private static int load32(byte[] m, long a) {
        return a >>> 32 == 0 ? (int) INT.get(m, (int) a) : (int) INT.get(CONSTANTS, index(a - FIRST));
    }

    private static long load64(byte[] m, long a) {
        return a >>> 32 == 0 ? (long) LONG.get(m, (int) a) : (long) LONG.get(CONSTANTS, index(a - FIRST));
    }

    // Numbers at an address that is made of one among the constants.

    private static int load8OfConstants(byte[] m, long a) {
        return load8(m, a);
    }

    private static int load16OfConstants(byte[] m, long a) {
        return load16(m, a);
    }

    private static int load32OfConstants(byte[] m, long a) {
        return load32(m, a);
    }

    private static long load64OfConstants(byte[] m, long a) {
        return load64(m, a);
    }

    /** An address as an index: one that is too large is none. */
    private static int index(long a) {
        return a >>> 31 == 0 ? (int) a : -1;
    }

    private static void store8(byte[] m, long a, int x) {
        m[index(a)] = (byte) x;
    }

    private static void store16(byte[] m, long a, int x) {
        SHORT.set(m, index(a), (short) x);
    }

    private static void store32(byte[] m, long a, int x) {
        INT.set(m, index(a), x);
    }

    private static void store64(byte[] m, long a, long x) {
        LONG.set(m, index(a), x);
    }

    private static void fill(byte[] m, long to, int x, long size) {
        if (size != 0) {
            Arrays.fill(m, index(to), index(to + size), (byte) x);
        }
    }

    private static void move(byte[] m, long to, long from, long size) {
        if (size != 0) {
            boolean isMemory = from >>> 32 == 0;
            System.arraycopy(isMemory ? m : CONSTANTS, index(isMemory ? from : from - FIRST), m, index(to), index(size));
        }
    }

    /** The product of two numbers of 128 bits, each as its low and its high half, is put at an address. */
    private static void multiply128(byte[] m, long to, long a, long aHigh, long b, long bHigh) {
        long high = Math.multiplyHigh(a, b) + (a >> 63 & b) + (b >> 63 & a);
        store64(m, to, a * b);
        store64(m, to + 8, high + a * bHigh + aHigh * b);
    }

    /** A number of 128 bits, shifted to the right by fewer bits than 128, is put at an address. */
    private static void shiftRight128(byte[] m, long to, long low, long high, int by) {
        if ((by & 64) != 0) {
            low = high;
            high = 0;
        }
        by &= 63;
        store64(m, to, low >>> by | high << 1 << 63 - by);
        store64(m, to + 8, high >>> by);
    }

    // What the calls make a machine of.

    /** The refusal of a call for which there is not enough memory, and the longest memory that one may have. */
    private static final int NO_MEMORY = 91;

    private static final long MOST = Integer.MAX_VALUE - 64;

    /** Where something lies that is put behind `size` bytes at an address: at a multiple of 16. */
    private static long behind(long at, long size) {
        return at + size + 15 & ~15L;
    }

    private static void put(byte[] m, long at, byte[] bytes) {
        System.arraycopy(bytes, 0, m, (int) at, bytes.length);
    }

    private static void take(byte[] m, long at, byte[] bytes, int length) {
        System.arraycopy(m, (int) at, bytes, 0, length);
    }

    private static void putNumbers(byte[] m, long at, long[] numbers) {
        for (int i = 0; i < numbers.length; i++) {
            store64(m, at + 8L * i, numbers[i]);
        }
    }

    private static void takeNumbers(byte[] m, long at, long[] numbers) {
        for (int i = 0; i < numbers.length; i++) {
            numbers[i] = load64(m, at + 8L * i);
        }
    }

    private static void putOffsets(byte[] m, long at, int[] offsets) {
        for (int i = 0; i < offsets.length; i++) {
            store32(m, at + 4L * i, offsets[i]);
        }
    }

    private static void takeOffsets(byte[] m, long at, int[] offsets) {
        for (int i = 0; i < offsets.length; i++) {
            offsets[i] = load32(m, at + 4L * i);
        }
    }

    /** Bytes of which each is a character. */
    private static void put(String bytes, int at) {
        for (int i = 0; i < bytes.length(); i++) {
            CONSTANTS[at + i] = (byte) bytes.charAt(i);
        }
    }
}
