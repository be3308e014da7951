package demo.shop.web;

import demo.shop.catalog.Catalog;
import demo.shop.orders.Orders;
import java.util.List;
import java.util.Map;

public final class Web {
    public static void main(String[] args) {
        var orders = new Orders(new Catalog(Map.of("tea", 250, "cake", 400)));
        System.out.println("tea and cake: " + orders.total(List.of("tea", "cake")) + " cents");
    }
}
