package demo.shop.orders;

import demo.shop.catalog.Catalog;
import java.util.List;

/** What an order costs. */
public record Orders(Catalog catalog) {
    public int total(List<String> names) {
        return names.stream().mapToInt(catalog::price).sum();
    }
}
