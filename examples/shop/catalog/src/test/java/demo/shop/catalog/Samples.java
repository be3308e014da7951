package demo.shop.catalog;

import java.util.Map;

/** A catalog that tests share. */
public final class Samples {
    public static final Catalog CATALOG = new Catalog(Map.of("tea", 250, "cake", 400));
}
