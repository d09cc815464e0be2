package shop;

import static java.util.stream.Collectors.*;
import java.util.*;

/** What lies on the shelves, and what it's worth. */
@SuppressWarnings(value = {"unused", "serial"})
public final class Stock<T extends Comparable<? super T>> implements Iterable<Stock.Item> {
    public record Item(String name, long cents, int... sizes) {}

    sealed interface Change permits Sale, Delivery {}
    static non-sealed class Sale implements Change {}
    private static final class Delivery implements Change {}

    private static final long MOST = 0x7FFF_FFFF_FFFF_FFFFL, NONE = 0L, MODE = 0755, BITS = 0b1010__0101;
    private static final double SHARE = .125, RATE = 1e-3, HALF = 5.e-1d, EDGE = 0x1.8p1, WHOLE = 12d;
    private static final float SMALL = 1f, LEAST = 0x.8P-126F;
    private static final char[] MARKS = {'\'', '"', '\\', '\n', '\0', '\177', '\u20ac', 'é'};
    private static final String LINE = "\ttwo \"words\"\s\101 \uuu0041\n", EMPTY = "";

    static final String USAGE = """
        usage: stock [FILE ..]  \
        "quoted", and ""\""" in a block
        """;

    private final Map<String, List<Item>> items = new TreeMap<>();
    private int größe$, \u0061ll; /**/

    public void add(Item item) {
        items.computeIfAbsent(item.name(), it -> new ArrayList<>()).add(item);
        größe$ += item.sizes().length >>> 1 | all << 2;
        all++;
    }

    /* The items of one name, the cheapest first. */
    List<Item> named(String name) {
        return items.getOrDefault(name, List.of()).stream()
            .filter(it -> it.cents() >= NONE && it.cents() != MOST)
            .sorted(Comparator.comparing(Item::cents)).collect(toList());
    }

    int kind(Object it) {
        assert it != null : "none";
        return switch (it.toString()) {
            case "tea", "bread" -> { int twice = all * 2 % 7; yield ~twice; }
            default -> it instanceof Item i && !i.name().isEmpty() ? 1 : -1;
        };
    }

    @Override public Iterator<Item> iterator() {
        outer:
        for (var list : items.values()) {
            do { if (list.isEmpty()) continue outer; else break; } while (true);
        }
        return items.values().stream().flatMap(List::stream).iterator(); // all of them
    }
}
