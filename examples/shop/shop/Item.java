package shop;

public interface Item {
  int price();
}
