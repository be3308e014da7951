package demo.shop.orders;

import demo.shop.catalog.Samples;
import java.util.List;

public final class OrdersTest {
    public static void main(String[] args) {
        assert new Orders(Samples.CATALOG).total(List.of("tea", "cake", "tea")) == 900 : "two teas and a cake";
    }
}
