package demo.shop.catalog;

import java.util.Map;

/** What is sold, and for how many cents. */
public record Catalog(Map<String, Integer> prices) {
    public int price(String name) {
        return prices.get(name);
    }
}
