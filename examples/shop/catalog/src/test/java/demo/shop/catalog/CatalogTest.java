package demo.shop.catalog;

public final class CatalogTest {
    public static void main(String[] args) {
        assert Samples.CATALOG.price("tea") == 250 : "the price of tea";
    }
}
